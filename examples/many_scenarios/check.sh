#!/bin/sh
# check.sh PROGRAM: runs each scenario again, here, by itself and in a folder of its own, and
# compares each file that it writes with the one in the scenario's folder, whichever machine made
# that. Then compares the check sums of all with sums.txt, which come from the machine on which this
# example was made. Ends with 0 where all bytes are the same.
[ $# -eq 1 ] || { echo 'usage: check.sh PROGRAM' >&2; exit 2; }
program=$(readlink -f "$1")
top=$(readlink -f "$(dirname "$0")")
work=$(mktemp -d)
trap 'rm -rf "$work"' EXIT
cd "$top" || exit 2
failures=0

fails() {
    echo "FAILED: $1"
    failures=$((failures + 1))
}

for folder in scenarios/*/; do
    name=$(basename "$folder")
    alone=$work/$name
    mkdir "$alone"
    for table in node link movement demand; do cp "$folder$table.csv" "$alone"; done
    # shellcheck disable=SC2046
    (cd "$alone" && "$program" $(sed 1q "$top/$folder/words.txt") >report.txt) ||
        fails "$name ends with $?"
    for file in agent.csv link_performance.csv gap.csv report.txt; do
        cmp "$alone/$file" "$folder$file" || fails "$name has another $file"
        echo "$(cksum <"$folder$file") $name/$file" >>"$work/sums"
    done
    echo "$name, made by $(cat "${folder}machine.txt"): compared with a single run"
done
cmp "$work/sums" sums.txt || fails 'the check sums are others than those of sums.txt'
[ $failures -eq 0 ] && echo 'all bytes are those of single runs'
exit $((failures > 0))
