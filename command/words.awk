# awk -f texts.awk -f options.awk -f words.awk -- OPTIONS WORDS..: names the first of the words that
# isn't text, or else isn't in the grammar, which docs/options.txt tells. Prints nothing where it
# finds none.

BEGIN {
    read_options(ARGV[1])
    fault = fault_of_words()
    if (fault != "") print "dta: " fault
    exit
}

# The names joined as in `a, b or c`.
function list_of(names, count, last,    text, k) {
    for (k = 1; k <= count; k++)
        text = text (k == 1 ? "" : k == count ? " " last " " : ", ") names[k]
    return text
}

# ---- the forms of values

function is_number(text, least, most) {
    return text ~ /^[0-9]+$/ && length(text) <= 9 && text + 0 >= least && text + 0 <= most
}

function is_identifier(text) {
    if (text !~ /^[0-9]+(\.0+)?$/) return 0
    sub(/\..*/, "", text)
    sub(/^0+/, "", text)
    return length(text) < 19 || length(text) == 19 && "n" text <= "n9223372036854775807"
}

# Whether a quantity lies between two thousandths, once what is finer is dropped.
function is_scale(text, least, most) {
    if (text !~ /^[+-]?([0-9]+\.?[0-9]*|\.[0-9]+)([eE][+-]?[0-9][0-9]?[0-9]?)?$/) return 0
    return int(text * 1000) >= least * 1000 && int(text * 1000) <= most * 1000
}

function are_numbers(text, how, least, most,    pieces, count, k) {
    count = split(text, pieces, ";")
    if (count < 1 || count > how) return 0
    for (k = 1; k <= count; k++) {
        if (most == "horizon" && !is_number(pieces[k], 0, horizon - 1)) return 0
        if (most != "horizon" && !is_scale(pieces[k], least, most)) return 0
    }
    return 1
}

# Whether a text is a value of an option, by what options.txt says of its range.
function is_value(name, text,    form, words) {
    form = range[name]
    gsub(/,/, "", form)
    split(form, words, " ")
    if (form ~ /^[0-9]+ to [0-9]+ steps below the horizon joined by ;$/)
        return are_numbers(text, words[3], 0, "horizon")
    if (form ~ /^[0-9]+ to [0-9]+ numbers from [0-9.]+ to [0-9.]+ joined by ;$/)
        return are_numbers(text, words[3], words[6], words[8])
    if (form ~ /^[0-9]+ to the horizon/) return is_number(text, words[1], horizon)
    if (form ~ /^[0-9]+ to [0-9]+/) return is_number(text, words[1], words[3])
    if (form ~ /link_id/) return is_identifier(text)
    return text !~ / / && index(" " form " ", " " text " ") > 0
}

# ---- the words

# The horizon that the words give, or else its default.
function horizon_of_words(    k, text) {
    text = usual["--horizon"]
    for (k = 3; k < ARGC; k++) {
        if (ARGV[k] ~ /^--horizon=/) text = substr(ARGV[k], 11)
        if (ARGV[k] == "--horizon" && k + 1 < ARGC) text = ARGV[k + 1]
    }
    return text + 0
}

function fault_of_command(word,    k) {
    for (k = 1; k <= commands; k++) if (command[k] == word) return ""
    return quoted(word) (word ~ /^-/ ? " stands before the command" : " is not a command") \
        "; the commands are " list_of(command, commands, "and")
}

# A word that belongs to no option.
function fault_of_number(word,    bounds) {
    if (called[ARGV[2]] !~ / N /)
        return quoted(word) " belongs to no option; options are written as --name value"
    split(size_told(), bounds, " ")
    if (!is_number(word, bounds[1], bounds[3]))
        return ARGV[2] " can't have the number " quoted(word) ": it goes from " size_told()
    return seen["N"]++ ? quoted(word) " is a second number; " ARGV[2] " takes one" : ""
}

# The sides of a grid, as in `2 to 60`.
function size_told(    text) {
    text = told_of_command[ARGV[2]]
    if (!match(text, /N from [0-9]+ to [0-9]+/)) return "2 to 60"
    return substr(text, RSTART + 7, RLENGTH - 7)
}

# What may be meant by a name that is no option.
function likely(name,    k) {
    for (k = 1; k <= options; k++)
        if (index(option[k], name) == 1 || index(name, option[k]) == 1)
            return "; is " option[k] " meant?"
    return ""
}

function fault_of_name(name,    k, takers_told, count) {
    if (name ~ /^-[^-]/) return quoted(name) " is not an option; they begin with two dashes"
    if (!(name in range)) return quoted(name) " is not an option" (name == "--" ? "" : likely(name))
    if (takes(ARGV[2], name)) return seen[name]++ ? name " is given twice" : ""
    for (k = 1; k <= commands; k++) if (takes(command[k], name)) takers_told[++count] = command[k]
    return name " is not an option of " ARGV[2] ", but of " list_of(takers_told, count, "and")
}

function fault_of_value(name, text) {
    if (is_value(name, text)) return ""
    return name " can't be " quoted(text) ": it takes " range[name] \
        (range[name] ~ /the horizon/ ? " (the horizon is " horizon ")" : "")
}

# The fault of the option that ARGV[at] begins; `at` then is its last word.
function fault_of_option(    word, name, fault) {
    word = ARGV[at]
    name = word
    sub(/=.*/, "", name)
    fault = fault_of_name(name)
    if (fault != "") return fault
    if (is_flag(name)) return word == name ? "" : name " takes no value"
    if (word != name) return fault_of_value(name, substr(word, length(name) + 2))
    if (at + 1 == ARGC || ARGV[at + 1] ~ /^-/) return name " needs a value: " range[name]
    return fault_of_value(name, ARGV[++at])
}

# What the command has to be given, and isn't.
function missing(    k) {
    if (called[ARGV[2]] ~ / N / && !seen["N"])
        return ARGV[2] " needs a number, from " size_told() ": how many nodes a side has"
    for (k = 1; k <= options; k++)
        if (usual[option[k]] ~ /must/ && takes(ARGV[2], option[k]) && !seen[option[k]])
            return ARGV[2] " needs " option[k] ": " range[option[k]]
    return ""
}

# A word that isn't text, before which the program doesn't look at the others.
function fault_of_text(    k, word) {
    for (k = 2; k < ARGC; k++) {
        word = ARGV[k]
        if (!is_other_text(word)) continue
        gsub(/[\200-\377]/, "?", word)
        return quoted(word) " has a letter that isn't UTF-8 text"
    }
    return ""
}

function fault_of_words(    fault) {
    fault = fault_of_text()
    if (fault != "") return fault
    if (ARGC < 3) return "a command has to come first: " list_of(command, commands, "or")
    horizon = horizon_of_words()
    fault = fault_of_command(ARGV[2])
    for (at = 3; fault == "" && at < ARGC; at++)
        fault = ARGV[at] ~ /^-/ ? fault_of_option() : fault_of_number(ARGV[at])
    return fault == "" ? missing() : fault
}
