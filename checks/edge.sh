#!/bin/sh
# edge.sh PROGRAM: runs the built program where the proofs end, and ends with 0 where each run ends
# with the number that is wanted and writes what is wanted.
checks=$(dirname "$(readlink -f "$0")")
. "$checks/begin.sh"

# ends NAME NUMBER COMMAND..: a command ends with this number.
ends() {
    name=$1
    wanted=$2
    shift 2
    "$@"
    status=$?
    [ "$status" -eq "$wanted" ] || fails "$name ends with $status and not $wanted"
}

# has NAME FILE: a file has the text of standard input and no more.
has() {
    cat >wanted
    cmp -s wanted "$2" || fails "$1: $2 has another text"
}

# tables VOLUME: two links in a line, each of length 1, over which so many vehicles go.
tables() {
    rm -f ./*.csv sweep.txt
    "$checks/two_links.sh" "$1" 1
}

# Every option at once: all words are taken, Report goes to standard output and Watch to standard
# error. The last vehicle is on the second link. In iteration 2 the first and third vehicle choose
# their routes anew, and the second keeps that of the start table.
tables 3
printf 'agent_id,o_zone_id,d_zone_id,link_ids\n1,1,3,10;20\n2,2,3,10;20\n' >start.csv
ends 'every option' 0 "$program" assign --step 12 --jam 250 --length-unit km --speed-unit mph \
    --horizon 36 --period 36 --iterations 2 --workers 3 --bucket 20 --queue newell --wave 18 \
    --watch 10 --plain --start >report 2>watch
has 'every option' report <<'TEXT'
nodes 3
links 2
vehicles 3
unrouted 0
iterations 2
arrived 2
running 1
waiting 0
route_steps 24
least_steps 24
gap_steps 0
gap_ppm 0
TEXT
has 'every option' watch <<'TEXT'
1,36,0,1,2,0,1,0,0
2,36,0,1,2,0,1,0,0
TEXT
has 'every option' agent.csv <<'TEXT'
agent_id,o_zone_id,d_zone_id,departure_step,arrival_step,status,link_ids,entry_steps,route_iteration
0,1,3,6,14,arrived,10;20,6;10,2
1,1,3,18,26,arrived,10;20,18;22,0
2,1,3,30,,running,10;20,30;34,2
TEXT
has 'every option' link_performance.csv <<'TEXT'
link_id,from_step,to_step,entered,travel_steps,free_steps
10,0,20,2,4,4
10,20,36,1,4,4
20,0,20,1,4,4
20,20,36,2,4,4
TEXT
has 'every option' gap.csv <<'TEXT'
iteration,route_steps,least_steps,gap_steps,gap_ppm
1,24,24,0,0
2,24,24,0,0
TEXT
mv link_performance.csv times.csv
mv report assigned
ends 'every option of skim' 0 "$program" skim --step 12 --jam 250 --length-unit km \
    --speed-unit mph --horizon 36 --bucket 20 --at '0;35' >report 2>watch
has 'every option of skim' report <<'TEXT'
nodes 3
links 2
zones 2
entries 4
TEXT
has 'every option of skim' skim.csv <<'TEXT'
o_zone_id,d_zone_id,start_step,least_steps
1,3,0,8
1,3,35,8
3,1,0,
3,1,35,
TEXT
ends 'every option of counts' 0 "$program" counts --step 12 --jam 250 --length-unit km \
    --speed-unit mph --horizon 36 --period 36 --iterations 2 --workers 3 --bucket 20 \
    --queue spatial --wave 100 --link 20 --plain >report 2>>watch
has 'every option of counts' counts.csv <<'TEXT'
kind,first,second,from_step,to_step,vehicles
turn,10,20,0,20,1
turn,10,20,20,36,2
through,1,3,0,36,3
TEXT
sed -n '6,8p' report >states
has 'every option of counts' states <<'TEXT'
arrived 2
running 1
waiting 0
TEXT

# The same assignment by trips: all tables but that of origin waits are those by links here.
mv agent.csv by_links
mv gap.csv gaps_by_links
ends 'every option by trips' 0 "$program" assign --step 12 --jam 250 --length-unit km \
    --speed-unit mph --horizon 36 --period 36 --iterations 2 --workers 3 --bucket 20 \
    --queue newell --wave 18 --watch 10 --plain --start --costs trips >report 2>>by_trips
has 'every option by trips' origin_wait.csv <<'TEXT'
link_id,from_step,to_step,departed,wait_steps
10,0,20,2,0
10,20,36,1,0
TEXT
cmp -s gap.csv gaps_by_links || fails 'every option by trips: gap.csv has another text'
cut -d , -f 1-8 by_links >first_columns
cut -d , -f 1-8 agent.csv | cmp -s - first_columns ||
    fails 'every option by trips: agent.csv has another text'
mv by_links agent.csv

# A sweep has the assignment of each scale, that of scale 1 being the first run but for the column
# that a start table brings; and an audit finds the tables of the first run right.
ends 'every option of sweep' 0 "$program" sweep --step 12 --jam 250 --length-unit km \
    --speed-unit mph --horizon 36 --period 36 --iterations 2 --workers 3 --bucket 20 \
    --queue newell --wave 18 --scales '0.6667;1' >report 2>>watch
has 'every option of sweep' report <<'TEXT'
scenarios 2
TEXT
cat >scenarios <<'TEXT'
scenario 0 scale 666
agent_id,o_zone_id,d_zone_id,departure_step,arrival_step,status,link_ids,entry_steps
0,1,3,18,26,arrived,10;20,18;22
link_id,from_step,to_step,entered,travel_steps,free_steps
10,0,20,1,4,4
10,20,36,0,4,4
20,0,20,0,4,4
20,20,36,1,4,4
iteration,route_steps,least_steps,gap_steps,gap_ppm
1,8,8,0,0
2,8,8,0,0
nodes 3
links 2
vehicles 1
unrouted 0
iterations 2
arrived 1
running 0
waiting 0
route_steps 8
least_steps 8
gap_steps 0
gap_ppm 0
scenario 1 scale 1000
TEXT
cut -d , -f 1-8 agent.csv | cat - times.csv gap.csv assigned >>scenarios
has 'every option of sweep' sweep.txt <scenarios
audited() {
    "$program" audit --step 12 --jam 250 --length-unit km --speed-unit mph --horizon 36 \
        --period 36 --bucket 20 --queue newell --wave 18
}
ends 'a sweep by trips' 0 "$program" sweep --step 12 --length-unit km --speed-unit mph \
    --horizon 36 --period 36 --bucket 20 --scales 1 --costs trips >report 2>>watch
sed -n '/^link_id,from_step,to_step,departed/,/^iteration/p' sweep.txt >waits
has 'a sweep by trips' waits <<'TEXT'
link_id,from_step,to_step,departed,wait_steps
10,0,20,2,0
10,20,36,1,0
iteration,route_steps,least_steps,gap_steps,gap_ppm
TEXT
cp agent.csv start.csv
ends 'every option of audit' 0 audited >report 2>>watch
has 'every option of audit' report <<'TEXT'
audit ok
vehicles 3
links 2
TEXT
has 'no Watch' watch </dev/null

# What an audit finds: a row, a journey, a missing row, a link time; also where nobody reads it.
sed -i '4s/running/arrived/' start.csv
ends 'another status' 8 audited >report
has 'another status' report <<'TEXT'
audit: start line 4 status
TEXT
ends 'another status, a full standard output' 8 audited >/dev/full
sed '4s/,10;20,/,20,/' agent.csv >start.csv
ends 'a link that does not begin in the zone' 8 audited >report
has 'a link that does not begin in the zone' report <<'TEXT'
audit: start line 4 link_ids
TEXT
sed 4d agent.csv >start.csv
ends 'a missing row' 8 audited >report
has 'a missing row' report <<'TEXT'
audit: start line 4 -
TEXT
cp agent.csv start.csv
sed -i '3s/,1,4,4$/,1,5,4/' times.csv
ends 'another link time' 8 audited >report
has 'another link time' report <<'TEXT'
audit: times line 3 travel_steps
TEXT
sed -i '3s/,1,5,4$/,1,5,5/' times.csv
ends 'other free-flow steps' 3 audited >report
has 'other free-flow steps' report <<'TEXT'
times line 3: E13 Disagrees free_steps
TEXT
rm times.csv
ends 'no link times' 4 audited >report
has 'no link times' report <<'TEXT'
read fault in times
TEXT

# Red on a link and on a turn, and a wave that keeps the first link's space back: vehicles leave it
# in step 9, and the wave takes 10 steps.
tables 3
printf 'link_id,from_node_id,to_node_id,length,capacity,capacity_by_step\n' >link.csv
printf '10,1,2,0.1,,\n20,2,3,0.1,,0:0;9:1800\n' >>link.csv
printf 'node_id,ib_link_id,ob_link_id,capacity_by_step\n2,10,20,0:none;20:0;24:none\n' >movement.csv
ends 'windows and a wave' 0 "$program" assign --length-unit km --period 3 --jam 20 \
    --queue newell --wave 6 >report
has 'windows and a wave' agent.csv <<'TEXT'
agent_id,o_zone_id,d_zone_id,departure_step,arrival_step,status,link_ids,entry_steps
0,1,3,0,11,arrived,10;20,0;9
1,1,3,1,11,arrived,10;20,1;9
2,1,3,2,26,arrived,10;20,19;24
TEXT

# A file that takes the first part of a piece and then no more.
tables 300
ends 'ample room' 0 "$program" assign --length-unit km >report
mv agent.csv whole
partly() {
    (
        trap '' XFSZ
        ulimit -f 1
        exec "$program" assign --length-unit km 2>/dev/null
    )
}
ends 'a file that is cut off' 5 partly >/dev/null
size=$(wc -c <agent.csv)
[ "$size" -gt 0 ] && [ "$size" -lt "$(wc -c <whole)" ] ||
    fails "a file that is cut off: $size bytes"
cmp -s -n "$size" agent.csv whole || fails 'a file that is cut off has another text'

# Devices that are full.
tables 3
ends 'a full standard output' 5 "$program" assign --length-unit km >/dev/full
[ -s gap.csv ] || fails 'a full standard output: no gap.csv'
tables 3
ends 'a full standard error' 5 "$program" assign --length-unit km --watch 10 >report 2>/dev/full
[ ! -e agent.csv ] && [ ! -s report ] || fails 'a full standard error: something was put'

# Outputs that are put whole and not kept, a run that makes no file, and an output that is a device.
unkept() {
    env LD_PRELOAD="$unkept" "$program" "$@"
}
if make_unkept; then
    tables 3
    ends 'outputs that are not kept' 5 unkept assign --length-unit km >report
    for file in agent.csv link_performance.csv gap.csv report; do
        [ -s "$file" ] || fails "outputs that are not kept: no $file"
    done
    ends 'origin waits that are not kept' 5 unkept assign --length-unit km --costs trips >report
    [ -s origin_wait.csv ] || fails 'origin waits that are not kept: no origin_wait.csv'
    mv link_performance.csv times.csv
    ends 'freeflow, not kept' 5 unkept freeflow --length-unit km >report
    ends 'skim, not kept' 5 unkept skim --length-unit km >report
    ends 'counts, not kept' 5 unkept counts --length-unit km >report
    ends 'sweep, not kept' 5 unkept sweep --scales 1 --length-unit km >report
    ends 'nothing to keep' 0 unkept demo 2 --horizon 1 >report
fi
tables 3
ln -s /dev/full origin_wait.csv
ends 'full origin waits' 5 "$program" assign --length-unit km --costs trips >report
[ -s link_performance.csv ] && [ ! -e gap.csv ] || fails 'full origin waits: other outputs'
ends 'origin waits that are not written' 0 "$program" assign --length-unit km >report
tables 3
ln -s /dev/null agent.csv
ends 'an output that is a device' 0 "$program" assign --length-unit km >report

# The other statuses.
ends 'no command' 2 "$program" >report
ends 'a sweep without scales' 2 "$program" sweep >report
ends 'a scale below a thousandth' 2 "$program" sweep --scales '1;0.0009' >report
ends 'a scale above ten' 2 "$program" sweep --scales '10.001' >report
ends '17 scales' 2 "$program" sweep --scales '1;1;1;1;1;1;1;1;1;1;1;1;1;1;1;1;1' >report
ends 'an option that audit has not' 2 "$program" audit --iterations 1 >report
has 'an option that audit has not' report <<'TEXT'
usage: dta COMMAND [options]
TEXT
ends 'words that are no text' 1 "$program" "$(printf 'assign\377')" >/dev/null 2>&1
tables 2000001
ends 'too many vehicles' 7 "$program" assign >report
has 'too many vehicles' report <<'TEXT'
size: demand line 2 vehicles 2000001 limit 2000000
TEXT
tables 1000001
ends 'too many vehicles at a scale' 7 "$program" sweep --scales '0.5;2' >report
has 'too many vehicles at a scale' report <<'TEXT'
size: demand line 2 vehicles 2000002 limit 2000000
TEXT
[ ! -e sweep.txt ] || fails 'too many vehicles at a scale: something was put'
tables 3
awk 'BEGIN { for (k = 0; k < 193; k++) print 100 + k ",1,2,1,1,60,600" }' >>link.csv
ends 'too many links times steps' 7 "$program" sweep --scales 1 --horizon 86400 >report
has 'too many links times steps' report <<'TEXT'
size: links 195 steps 86400 limit 16777216
TEXT
tables x
ends 'a volume that is no number' 3 "$program" assign >report
has 'a volume that is no number' report <<'TEXT'
demand line 2: E4 NotNumber volume
TEXT
rm node.csv
ends 'no node table' 4 "$program" assign >report
has 'no node table' report <<'TEXT'
read fault in node
TEXT

end 'all is as it should be'
