#!/bin/sh
# compare.sh PROGRAM [ITERATIONS]: runs examples/sioux_falls for 20 iterations, then the tables of
# this folder for ITERATIONS (20) from free flow (cold) and from the routes of the first run (warm).
# Prints how many rows of the start table fitted, and route_steps and gap_ppm of each iteration. It
# works in a folder of its own and leaves nothing behind.
[ $# -ge 1 ] || { echo 'usage: compare.sh PROGRAM [ITERATIONS]' >&2; exit 2; }
program=$(realpath "$1")
iterations=${2:-20}
here=$(dirname "$(realpath "$0")")
work=$(mktemp -d)
trap 'rm -rf "$work"' EXIT
for name in base cold warm; do mkdir "$work/$name" && cp "$here"/*.csv "$work/$name" || exit 2; done
cp "$here/../sioux_falls/link.csv" "$work/base"

# assign FOLDER WORDS: an assignment there.
assign() {
    (cd "$work/$1" && shift && "$program" assign --horizon 2400 "$@" >/dev/null) || exit 1
}

assign base --iterations 20
cp "$work/base/agent.csv" "$work/warm/start.csv"
assign warm --iterations 1 --start
awk -F, 'NR > 1 { rows++; fit += $NF == "0" } END { print fit " of " rows " rows fit" }' \
    "$work/warm/agent.csv"
assign cold --iterations "$iterations"
assign warm --iterations "$iterations" --start
echo 'iteration      cold          warm'
paste -d, "$work/cold/gap.csv" "$work/warm/gap.csv" |
    awk -F, 'NR > 1 { printf "%9d %9d %6d %9d %6d\n", $1, $2, $5, $7, $10 }'
