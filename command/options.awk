# Read behind texts.awk and before words.awk, man.awk or completion.awk: reads docs/options.txt,
# which has the commands and options once for all of them.
#
# read_options(FILE) sets: title; commands, command[k] and letters[k], and by a command's name
# called (with its options) and told_of_command; options and option[k], and by an option's name
# takers (its letters), range, usual (its default), example and told_of_option; examples and
# example_line[k]; about, what is said of all options; and end, what stands behind the examples.

# A text with another line behind it.
function joined(text, more) {
    more = trim(more)
    return text == "" || more == "" ? text more : text " " more
}

# What of a line stands in a column of the table of options.
function cell(line, from, behind) {
    return trim(behind ? substr(line, from, behind - from) : substr(line, from))
}

function read_table_row(line) {
    if (line ~ /^  --/) {
        option[++options] = cell(line, 1, at_takers)
        takers[option[options]] = cell(line, at_takers, at_range)
        example[option[options]] = cell(line, at_example)
    }
    range[option[options]] = joined(range[option[options]], cell(line, at_range, at_default))
    usual[option[options]] = joined(usual[option[options]], cell(line, at_default, at_example))
}

function read_header(line) {
    at_takers = index(line, "For")
    at_range = index(line, "Range")
    at_default = index(line, "Default")
    at_example = index(line, "Example")
}

# What a command, an option or an example is told to be.
function read_entry(line,    words, at) {
    split(line, words, " ")
    if (part == "examples")
        example_line[++examples] = trim(line)
    else if (words[1] == "dta") {
        at = index(line, "]   ")
        command[++commands] = words[2]
        called[words[2]] = trim(substr(line, 1, at))
        told_of_command[words[2]] = trim(substr(line, at + 1))
    } else if (line ~ /^  --/) {
        name = words[1]
        told_of_option[name] = trim(substr(line, length(name) + 3))
    } else if (name != "")
        told_of_option[name] = joined(told_of_option[name], line)
    else
        told_of_command[command[commands]] = joined(told_of_command[command[commands]], line)
}

function read_options(file,    line) {
    while ((getline line <file) > 0) {
        if (title == "") title = line
        else if (line ~ /^  Option +For/) { part = "table"; read_header(line) }
        else if (line == "") { if (part == "table") part = "" }
        else if (line ~ /^Examples/) part = "examples"
        else if (part == "table") read_table_row(line)
        else if (line ~ /^  /) read_entry(line)
        else if (part == "examples") end = end line "\n"
        else about = about line "\n"
    }
    close(file)
    split(takers[option[1]], letters, " ")
    # The sentence of the letters.
    sub(/ f, a.*/, "", about)
}

# Whether a command takes an option.
function takes(what, name,    k) {
    for (k = 1; k <= commands; k++)
        if (command[k] == what) return index(" " takers[name] " ", letters[k]) > 0
    return 0
}

function is_flag(name) { return range[name] ~ /flag/ }
