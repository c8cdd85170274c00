# awk -f tool_man.awk -- HELP VERSION DAY: the page of the manual of a tool, made from the file HELP,
# which has what the tool prints with --help.

BEGIN {
    while ((getline line <ARGV[1]) > 0) {
        if (title == "") { title = line; print_head(line) }
        else if (line == "") gap = 1
        else if (line ~ /^[^ ]/) print_heading(line)
        else { print_line(line); gap = 0 }
    }
    if (part == "Example") print ".fi"
    print ".SH SEE ALSO\n.BR dta (1)"
    exit
}

# A text as roff has it.
function roff(text) {
    gsub(/\\/, "\\e", text)
    gsub(/-/, "\\-", text)
    if (text ~ /^[.']/) text = "\\&" text
    return text
}

function print_head(line,    name) {
    name = line
    sub(/:.*/, "", name)
    sub(/^[^:]*: /, "", line)
    print ".TH " toupper(name) " 1 \"" ARGV[3] "\" \"dta " ARGV[2] "\" \"User Commands\""
    print ".SH NAME\n" name " \\- " roff(line)
}

function print_heading(line) {
    if (part == "Example") print ".fi"
    part = line
    gap = 0
    print ".SH " (line == "Usage" ? "SYNOPSIS" : toupper(line))
    if (line == "Example") print ".nf"
}

function print_line(line,    name) {
    sub(/^  /, "", line)
    if (part == "Usage" && gap) { part = "Description"; print ".SH DESCRIPTION"; gap = 0 }
    if (line ~ /^--/) {
        name = line
        sub(/   *[^ ].*/, "", name)
        line = substr(line, length(name) + 1)
        print ".TP\n.B " roff(name)
    } else if (gap) print ".PP"
    sub(/^ +/, "", line)
    print roff(line)
}
