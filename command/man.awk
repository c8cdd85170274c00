# awk -f texts.awk -f options.awk -f man.awk -- OPTIONS VERSION DAY DOCS SHARE: the page of the
# manual, made from docs/options.txt. The documents are in DOCS, the examples and the page in SHARE.

BEGIN {
    read_options(ARGV[1])
    print ".TH DTA 1 \"" ARGV[3] "\" \"dta " ARGV[2] "\" \"User Commands\""
    print_head()
    print_commands()
    print_options()
    print ".SH EXAMPLES\n.nf"
    for (k = 1; k <= examples; k++) print roff(example_line[k])
    print ".fi\n.SH EXIT STATUS"
    sub(/^Exit status: /, "", end)
    print roff(end)
    print ".SH FILES\n.TP\n.I " ARGV[5] "/examples\nsmall networks with what comes out of them; " \
        "copy one to a folder of your own"
    print ".TP\n.I " ARGV[5] "/view/index.html\nshows the folder of a run in a browser"
    print ".SH SEE ALSO\n.BR dta\\-connectors (1),\n.BR dta\\-from\\-matrix (1),"
    print ".BR dta\\-from\\-tntp (1)"
    exit
}

# A text as roff has it: hyphens that can be copied, and no line that begins as a request.
function roff(text) {
    gsub(/docs\//, ARGV[4] "/", text)
    gsub(/\\/, "\\e", text)
    gsub(/-/, "\\-", text)
    gsub(/\n[.']/, "\n\\\\\\&", text)
    return text
}

function print_head(    name, told) {
    name = title
    sub(/\..*/, "", name)
    sub(/: /, " \\- ", name)
    told = title
    sub(/^[^.]*\. */, "", told)
    print ".SH NAME\n" name "\n.SH SYNOPSIS"
    for (k = 1; k <= commands; k++) print (k > 1 ? ".br\n" : "") roff(called[command[k]])
    print ".br\ndta help\n.SH DESCRIPTION\n" roff(told)
    print roff(about)
}

function print_commands() {
    print ".SH COMMANDS"
    for (k = 1; k <= commands; k++) {
        print ".TP\n.B " roff(called[command[k]])
        print roff(told_of_command[command[k]])
    }
    print ".TP\n.B dta help\nprints all of this in short"
}

function print_options(    name, takers_told, j) {
    print ".SH OPTIONS"
    for (k = 1; k <= options; k++) {
        name = option[k]
        takers_told = ""
        for (j = 1; j <= commands; j++)
            if (takes(command[j], name)) takers_told = takers_told " " command[j]
        print ".TP\n.B " roff(example[name])
        print roff(told_of_option[name]) ".\n.br"
        print roff(range[name]) ".\nDefault: " roff(usual[name]) ". Taken by:" takers_told "."
    }
}
