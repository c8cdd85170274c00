#!/bin/sh
# runs.sh [CASE..]: measures whole runs of the built program. Cases are the lines of the table
# below; all of them are run where none is named. It takes from the environment
#   PROGRAM   the path of the built program; without it, what `./dta` built here is measured;
#   PEER      the path of another program of the same rules, which takes the same words, writes the
#             same files and ends with the same status; without it dta is measured alone;
#   MAKE_NET  the path of a program that makes a road network: `MAKE_NET FOLDER SIDE ZONES VEHICLES
#             [SEED] [--movements]` writes node.csv, link.csv and demand.csv of about SIDE by SIDE
#             nodes to the folder, with --movements movement.csv too, and for the same words the
#             same bytes; without it the cases of such networks are left out.
#
# Each program runs three times, in turns, in each way of a case. A row has the middle one of the
# three in seconds by the clock and in seconds of processors (with those of the kernel), and the
# largest peak of memory in MB; the same of PEER; and over, dta's seconds of processors by those of
# PEER. The last column says whether all runs of the case so far ended with one status and wrote the
# same files and the same report. Ends with 1 where some did not. Where other work is done meanwhile
# the seconds say little.

# Name | tables | words | ways
cases='freeflow | ring 20000 1 7 100 | freeflow | --step=6
sioux_falls | sioux_falls | assign --iterations 10 | --plain
sioux_trips | sioux_falls | assign --iterations 10 --costs trips | --plain
grid_30 | grid 30 | assign --iterations 10 | --plain
grid_60 | grid 60 | assign --iterations 10 | --plain
town | made 11 40 11000 1 --movements | assign --iterations 10 | --plain
country | made 40 100 20000 | assign --iterations 3 | --plain
country_trips | made 40 100 20000 | assign --iterations 3 --costs trips | --plain
heavy | made 100 100 200000 | assign | --plain
crowd | made 40 50 1900000 | assign | --plain
workers_60 | grid 60 | assign | --plain --workers=1 --workers=2 --workers=3 --workers=4
workers_100 | grid 100 | assign | --plain --workers=1 --workers=2 --workers=3 --workers=4
routes | grid 100 100 20000 | assign --iterations 3 | --workers=1 --workers=2 --workers=4
sweep | sioux_falls | sweep --scales 0.8;0.9;1;1.1 --iterations 10 | --workers=1 --workers=4
skim | loaded 40 100 20000 --iterations 3 | skim | --at=0
skim_of_three | loaded 40 100 20000 --iterations 3 | skim | --at=0;300;600
audit | large_results | audit --step 60 --horizon 7200 | --period=6000
audit_differs | changed_results | audit --step 60 --horizon 7200 | --period=6000
star | hub star | assign --period 300 --horizon 600 --iterations 2 | --plain
jam | hub jam | assign --period 100 --horizon 2400 --iterations 2 --queue spatial | --plain
turns | hub turns | assign --period 200 --horizon 1200 --iterations 2 | --plain
listed | hub listed | assign --period 150 --horizon 200 --iterations 2 | --plain
zone | hub zone | assign --horizon 100 | --plain
halves | hub halves | assign --horizon 200 --iterations 2 --queue spatial | --plain'

bench=$(dirname "$(readlink -f "$0")")
program=$(realpath -m "${PROGRAM:-$bench/../crates/dta/out/dta}")
peer=${PEER:+$(realpath -m "$PEER")}
make_net=${MAKE_NET:+$(realpath -m "$MAKE_NET")}
for path in "$program" ${peer:+"$peer"} ${make_net:+"$make_net"}; do
    [ -x "$path" ] || {
        echo "runs.sh: $path isn't there. PROGRAM, PEER and MAKE_NET are paths of programs; ./dta
builds the one that is measured without PROGRAM" >&2
        exit 2
    }
done
for name in "$@"; do
    echo "$cases" | grep -q "^$name |" || { echo "runs.sh: there is no case $name" >&2; exit 2; }
done
. "$bench/begin.sh"
outputs='agent.csv link_performance.csv origin_wait.csv gap.csv skim.csv sweep.txt'
wanted=0

# The tables of cases, in the current folder.

ring() { "$bench/ring.sh" "$@"; }
grid() { "$bench/grid.sh" "$@"; }
hub() { "$bench/hub.sh" "$@"; }
sioux_falls() { cp "$bench"/../examples/sioux_falls/*.csv . && rm -f $outputs; }
made() { "$make_net" . "$@" >/dev/null; }

# loaded SIDE ZONES VEHICLES WORDS..: a grid, with the agent table and the link times of an
# assignment.
loaded() {
    grid "$1" "$2" "$3"
    shift 3
    "${peer:-$program}" assign --plain "$@" >report &&
        mv agent.csv start.csv && mv link_performance.csv times.csv
}

large_results() { loaded 12 40 1950000 --step 60 --horizon 7200 --period 6000; }

# The same with another last entry, which an audit finds.
changed_results() {
    wanted=8
    large_results && sed -i '$s/[0-9]*$/7777/' start.csv
}

# Makes the tables of a case, and says whether there are any.
has_tables() {
    if [ "${tables%% *}" = made ] && [ -z "$make_net" ]; then
        echo "| $name | not measured, since MAKE_NET isn't set |"
        return 1
    fi
    $tables || { fails "$name has no tables"; return 1; }
}

# note FILE COMMAND..: runs a command. Notes what it takes in the file, and in `sums` how it ended
# and the check sum of what it wrote.
note() {
    rm -f $outputs
    timed "$@" >report
    echo "$? $(cat $outputs report 2>/dev/null | cksum)" >>sums
}

# measure NAME WAY WORDS..: prints a row.
measure() {
    title="$1 $2"
    way=$2
    shift 2
    rm -f ours theirs
    for _ in 1 2 3; do
        note ours "$program" "$@" "$way"
        [ -z "$peer" ] || note theirs "$peer" "$@" "$way"
    done
    bytes=equal
    [ "$(sort -u sums | wc -l)" = 1 ] || bytes=DIFFERENT
    grep -qv "^$wanted " sums && bytes="$bytes, status not $wanted"
    [ "$bytes" = equal ] || wrong=1
    other='- | - | - | -'
    [ -z "$peer" ] || other="$(middle theirs) | $(
        cat ours theirs | awk '{ busy[NR > 3] += $2 + $3 }
            END { printf busy[1] ? "%.2f" : "-", busy[1] ? busy[0] / busy[1] : 0 }')"
    echo "| $title | $(middle ours) | $other | $bytes |"
}

echo '| case | clock | processors | MB | other: clock | processors | MB | over | bytes |'
echo '|---|---|---|---|---|---|---|---|---|'
echo "$cases" | sed 's/ | /|/g' >table
while IFS='|' read -r name tables words ways; do
    [ $# -eq 0 ] || case " $* " in *" $name "*) ;; *) continue ;; esac
    mkdir "$folder/tables" && cd "$folder/tables" || exit 2
    wanted=0
    if has_tables; then
        for way in $ways; do measure "$name" "$way" $words; done
    fi
    cd "$folder" && rm -rf tables
done <table
exit $wrong
