#!/bin/sh
# textbook.sh PROGRAM [--write]: runs a built program over the cases of examples/textbook, whose
# answers are known by theory, works the lines by hand in their READMEs out again, and ends with 0
# where each answer.csv and each row of the table in docs/VALIDATION.md is what comes out, digit by
# digit, and no number is told beside that table which isn't in it. With --write it writes the
# answers and the rows anew before it looks.
checks=$(dirname "$(readlink -f "$0")")
textbook=$(realpath "$checks/../examples/textbook")
validation=$(realpath "$checks/../docs/VALIDATION.md")
more='[--write]'
. "$checks/begin.sh"
cases='bottleneck discharge waves spillback storage two_routes braess braess_without merge diverge
    blocked_turn signal_delay'

# run FOLDER WORDS_FILE: a run in a folder that has the tables.
run() {
    # shellcheck disable=SC2046
    (cd "$1" && "$program" $(cat "$2") >report.txt) || fails "$1: status $?"
}

# run_case NAME: the runs of a case, in a folder of that name.
run_case() {
    cp -r "$textbook/$1" . && run "$1" run.txt
    for words in "$1"/run_*.txt; do
        [ -e "$words" ] || continue
        other=${words#*/run_}
        other=$1/${other%.txt}
        mkdir "$other" && cp "$textbook/$1"/*.csv "$other" && run "$other" "../${words#*/}"
    done
}

# rows: those of the table in docs/VALIDATION.md.
rows() { grep '^| `' "$validation"; }

# numbers: those of a text, each once.
numbers() { grep -Eo '[0-9]+([.,][0-9]+)*' | tr -d , | sort -u; }

write_answers() {
    for name in $cases; do cp "$name/answer" "$textbook/$name/answer.csv"; done
    awk '/^[|] `/ { if (!done++) while ((getline line <"table") > 0) print line; next } 1
        ' "$validation" >written && cp written "$validation"
}

# Each folder is a case of the list.
(cd "$textbook" && ls -d ./*/) | sed 's,[./],,g' >there
printf '%s\n' $cases | sort | diff - there || fails 'the list of cases or the folders'
for name in $cases; do
    run_case "$name"
    { echo what,by_hand,dta; python3 "$checks/textbook.py" "$name"; } >"$name/answer" ||
        fails "$name, by hand"
done
python3 "$checks/textbook.py" --table $cases >table || fails 'the table'
[ "${1:-}" != --write ] || write_answers
for name in $cases; do
    diff "$textbook/$name/answer.csv" "$name/answer" || fails "$name, answer.csv"
done
rows | diff - table || fails 'the table of docs/VALIDATION.md'
numbers <table >known
sed '/^## Beside other programs/,$d; /^|/d' "$validation" | numbers | comm -23 - known >unknown
[ ! -s unknown ] || fails "docs/VALIDATION.md tells $(tr '\n' ' ' <unknown)outside the table"
end "$(wc -l <table) answers of $(printf '%s\n' $cases | wc -l) cases are as they are written"
