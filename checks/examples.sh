#!/bin/sh
# examples.sh PROGRAM: runs a built program over the examples that have a folder `expected`, with
# the words of their READMEs and in a folder of its own, and ends with 0 where it writes these very
# files; and over those of audits and of many scenarios, where it prints what their READMEs say.
checks=$(dirname "$(readlink -f "$0")")
examples=$(realpath "$checks/../examples")
. "$checks/begin.sh"

# begin NAME: the tables of an example, in a new folder.
begin() {
    name=$1
    mkdir "$folder/$name" && cp "$examples/$name"/*.csv "$folder/$name" && cd "$folder/$name" ||
        exit 2
}

# run WORDS: a run that must end with 0.
run() {
    "$program" "$@" >report || fails "$name, $*: status $?"
}

# writes FILE..: the files that are expected of the last run.
writes() {
    for file in "$@"; do
        cmp "$file" "$examples/$name/expected/$file" || fails "$name, $file"
    done
}

begin turns
run assign --period 20 --horizon 60 --bucket 20
cp link_performance.csv times.csv
run skim --horizon 60 --bucket 20 --at '0;20'
run counts --period 20 --horizon 60 --bucket 20 --link 34
writes skim.csv counts.csv

begin signal
run assign --period 60 --horizon 120 --bucket 5
run counts --period 60 --horizon 120 --bucket 5
writes agent.csv counts.csv

begin backward_wave
run assign --period 96 --horizon 138 --bucket 6 --queue newell
writes link_performance.csv

begin morning_peak
run assign --period 900 --horizon 1500 --bucket 150
writes link_performance.csv

begin two_roads
run assign --horizon 2400 --iterations 20
grep -qx 'gap_ppm 0' report || fails 'two_roads, by link times'
[ ! -e origin_wait.csv ] || fails 'two_roads, by link times: origin_wait.csv'
run assign --horizon 2400 --iterations 20 --costs trips
writes origin_wait.csv gap.csv

begin sioux_falls
run assign --horizon 2400 --iterations 20
cp agent.csv "$folder/start.csv"
begin warm_start
mv "$folder/start.csv" .
run assign --horizon 2400 --iterations 5 --start
writes gap.csv

begin roundabout
run sweep --queue newell --scales '0.5;1;1.5;2'
"$examples/roundabout/summary.sh" <sweep.txt >summary.csv
writes summary.csv
"$examples/roundabout/cut_out.sh" 1 <sweep.txt
cp agent.csv link_performance.csv gap.csv report.txt "$folder"
run assign --queue newell
for file in agent.csv link_performance.csv gap.csv; do cmp "$file" "$folder/$file"; done &&
    cmp report "$folder/report.txt" || fails 'roundabout, the scenario of scale 1 alone'

# audited STATUS LINE: an audit of the tables start.csv and times.csv ends with this status and
# prints this line first.
audited() {
    "$program" audit --period 1 --horizon 60 >report
    got="$? $(head -n 1 report)"
    [ "$got" = "$1 $2" ] || fails "audit, wanted $1 $2, got $got"
}

begin audit
cp "$examples/audit/changed/agent.csv" start.csv
cp "$examples/audit/changed/link_performance.csv" times.csv
audited 8 'audit: start line 5 arrival_step'
run assign --period 1 --horizon 60 --iterations 2
cp agent.csv start.csv
audited 8 'audit: times line 2 travel_steps'
cp link_performance.csv times.csv
audited 0 'audit ok'
cp "$examples/audit/left_out/agent.csv" start.csv
cp "$examples/audit/left_out/link_performance.csv" times.csv
audited 0 'audit ok'

cp -r "$examples/many_scenarios" "$folder" && cd "$folder/many_scenarios" || exit 2
for scenario in scenarios/*/; do
    ./run_one.sh "$program" "$scenario" || failures=$((failures + 1))
done
./check.sh "$program" >/dev/null || fails 'many_scenarios'

end 'all examples write what is expected'
