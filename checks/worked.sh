#!/bin/sh
# worked.sh PROGRAM: runs a built program over the cases of worked_runs as a planner would: each in
# a folder of its own with the case's tables, and with its words. Prints each case of which the
# status, a text or a file isn't as it is expected, and how many are; ends with 0 where all are.
checks=$(dirname "$(readlink -f "$0")")
cases=$(realpath "$checks/../crates/worked_runs/data")
. "$checks/begin.sh"
outputs='agent.csv link_performance.csv origin_wait.csv gap.csv skim.csv counts.csv sweep.txt'
ran=0

# has FILE WANTED: a file has these bytes. Where none are wanted it isn't there or is empty, or a
# folder has its name.
has() {
    if [ -e "$2" ]; then cmp -s "$1" "$2"; else [ ! -s "$1" ] || [ -d "$1" ]; fi
}

# hinders CASE: lays a table that can't be opened, and an output that can't be made, where the case
# names one.
hinders() {
    if [ -e "$1/unread" ]; then ln -s "$(cat "$1/unread")" "$(cat "$1/unread")"; fi
    if [ -e "$1/unwritten" ]; then mkdir "$(cat "$1/unwritten")"; fi
}

# rises LAST: the iterations and steps of the watch lines rise, and the last line is that of a file.
rises() {
    cut -d , -f 1,2 watch | sort -c -u -t , -k 1,1n -k 2,2n 2>/dev/null &&
        tail -n 1 watch | cmp -s - "$1"
}

# watched EXPECTED: the watch lines are as expected: all of them, or the last one where workers
# determine that one alone.
watched() {
    if [ -e "$1/watch_last" ]; then rises "$1/watch_last"; else has watch "$1/watch"; fi
}

for case in "$cases"/*/; do
    name=$(basename "$case")
    expected=$case/expected
    ran=$((ran + 1))
    wrong=
    mkdir "$folder/$name" && cd "$folder/$name" || exit 2
    cp "$case"*.csv . 2>/dev/null
    hinders "$case"
    # shellcheck disable=SC2046
    "$program" $(cat "$case/words.txt") >report 2>watch
    status=$?
    [ "$status" -eq "$(cat "$expected/status")" ] || wrong="$wrong, status $status"
    has report "$expected/report" || wrong="$wrong, report"
    watched "$expected" || wrong="$wrong, watch"
    for output in $outputs; do
        has "$output" "$expected/$output" || wrong="$wrong, $output"
    done
    [ -z "$wrong" ] || fails "$name${wrong}"
done

echo "$((ran - failures)) of $ran cases are as expected"
exit "$((failures > 0))"
