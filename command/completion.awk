# awk -f texts.awk -f options.awk -f completion.awk -- OPTIONS: how bash completes the words of dta,
# made from docs/options.txt.

BEGIN {
    read_options(ARGV[1])
    print "# bash completion for dta"
    print "_dta() {"
    print "    local word=${COMP_WORDS[COMP_CWORD]} before=${COMP_WORDS[COMP_CWORD-1]} words="
    print "    [ \"$word\" != = ] || word="
    print "    [ \"$before\" != = ] || before=${COMP_WORDS[COMP_CWORD-2]}"
    print "    case $before in"
    for (k = 1; k <= options; k++)
        if (!is_flag(option[k])) print "        " option[k] ") words='" values(option[k]) "' ;;"
    print "        *) case ${COMP_WORDS[1]} in"
    for (k = 1; k <= commands; k++)
        print "            " command[k] ") words='" names(command[k]) "' ;;"
    print "        esac ;;"
    print "    esac"
    print "    [ \"$COMP_CWORD\" -gt 1 ] || words='" all_commands() "'"
    print "    mapfile -t COMPREPLY < <(compgen -W \"$words\" -- \"$word\")"
    print "}"
    print "complete -F _dta dta"
    exit
}

# The values of an option that has a few of them.
function values(name,    text) {
    if (range[name] !~ /^[a-z]+(, [a-z]+)+$/) return ""
    text = range[name]
    gsub(/,/, "", text)
    return text
}

function names(what,    text, j) {
    for (j = 1; j <= options; j++) if (takes(what, option[j])) text = text " " option[j]
    return trim(text)
}

function all_commands(    text, j) {
    for (j = 1; j <= commands; j++) text = text command[j] " "
    return text "help"
}
