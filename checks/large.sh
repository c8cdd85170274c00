#!/bin/sh
# large.sh PROGRAM [CASE..]: large input gets an answer, which no clause says: each leaves want of
# memory free. Runs a built program over large tables, with --plain and with 16 workers, one run
# after another, with stacks of 128 KB, which docs/FORMATS.md calls enough. Each must end with status
# 0, and all must write the same tables and the same report. Prints the seconds and the peak memory
# of each run; ends with 0 where all is as it should be. Cases are the functions that `cases` names,
# and all of them run where none is said.
#
# PEER, in the environment, is the path of another program of the same rules, which takes the same
# words, writes the same files and ends with the same status. Where it is set each case runs it
# first, and the program must write what it wrote.
cases='many_vehicles long_chain long_horizon wide_labels many_iterations many_links many_rows
many_turns crossings many_zones no_demand many_counts many_entries many_windows many_waves
long_waves many_starts many_scales many_audits many_trips many_waits'
checks=$(dirname "$(readlink -f "$0")")
more='[CASE..]'
peer=${PEER:+$(realpath -m "$PEER")}
. "$checks/begin.sh"
if [ -z "$peer" ]; then echo "PEER isn't set: the program is compared with itself"
elif [ ! -x "$peer" ]; then echo "large.sh: PEER isn't a program: $peer" >&2; exit 2; fi
outputs='agent.csv link_performance.csv origin_wait.csv gap.csv skim.csv counts.csv sweep.txt'
runs=0
small_stack='prlimit --stack=131072'

# timed NAME COMMAND..: runs a command in the current folder, and prints what it took.
timed() {
    told=$1
    shift
    runs=$((runs + 1))
    /usr/bin/time -o "$folder/time" -f '%e seconds, %U + %S of processors, peak %M KB' "$@" >report
    status=$?
    echo "  $told: status $status, $(tail -n 1 "$folder/time")"
    [ $status -eq 0 ] || fails "$told ends with $status: $(head -n 1 report)"
}

# same NAME COMMAND..: runs a command. It writes what the first run of the case wrote.
same() {
    timed "$@"
    mkdir now
    mv report $outputs now 2>/dev/null
    if [ ! -e first ]; then mv now first; return; fi
    diff -r -q first now || fails "$1 writes something else"
    rm -r now
}

# compare WAYS WORDS..: runs the program with these words in each of the ways, and before it the
# other program in the first way, in the current folder of tables, which is then removed.
compare() {
    ways=$1
    shift
    [ -z "$peer" ] || same 'the other program' "$peer" "$@" ${ways%% *}
    [ -n "$ways" ] || same dta $small_stack "$program" "$@"
    for way in $ways; do same "dta $way" $small_stack "$program" "$@" "$way"; done
    tr '\n' ';' <first/report
    echo
    cd "$folder" && rm -rf tables
}

# assign WORDS.., counts WORDS..: the same of these commands, plainly and by workers.
assign() { compare '--plain --workers=16' assign "$@"; }
counts() { compare '--plain --workers=16' counts "$@"; }

# earlier WORDS..: a run from which a case begins, by the other program where there is one.
earlier() {
    timed "${peer:+the other program, }before" "${peer:-$program}" assign --plain "$@"
    mv agent.csv start.csv
    mv link_performance.csv times.csv
    rm gap.csv
}

# begin TITLE: a new folder, which is then the current one.
begin() {
    echo "$1:"
    mkdir "$folder/tables" && cd "$folder/tables" || exit 2
}

# Nodes 1 to NODES in a line, joined by links one way: `chain NODES LENGTH`. The first node is zone
# 1, the last one zone 2.
chain() {
    awk -v n="$1" -v length_="$2" 'BEGIN {
        print "node_id,zone_id" >"node.csv"
        print "link_id,from_node_id,to_node_id,length,free_speed,capacity" >"link.csv"
        for (k = 1; k <= n; k++) {
            print k "," (k == 1 ? 1 : k == n ? 2 : "") >"node.csv"
            if (k < n) print k "," k "," k + 1 "," length_ ",60,3600" >"link.csv"
        }
    }'
}

# demand ROWS: a demand table of these rows, each OTHER,OTHER,VOLUME.
demand() {
    echo o_zone_id,d_zone_id,volume >demand.csv
    printf '%s\n' "$@" >>demand.csv
}

# grid SIDE ZONES: a grid of nodes with links both ways; so many zones are spread over it.
grid() {
    awk -v n="$1" -v zones="$2" 'function add(to) {
        print ++links "," k + 1 "," to + 1 "," 100 + 7 * k % 90 ",60,1800" >"link.csv"
    }
    BEGIN {
        print "node_id,zone_id" >"node.csv"
        print "link_id,from_node_id,to_node_id,length,free_speed,capacity" >"link.csv"
        every = int(n * n / zones)
        for (k = 0; k < n * n; k++) {
            zone = k % every == 0 && k / every < zones ? k / every + 1 : ""
            print k + 1 "," zone >"node.csv"
            if ((k + 1) % n) add(k + 1)
            if (k + n < n * n) add(k + n)
            if (k % n) add(k - 1)
            if (k >= n) add(k - n)
        }
    }'
}

many_vehicles() {
    begin '1,900,000 vehicles'
    grid 12 4
    demand 1,2,500000 2,3,500000 3,4,500000 4,1,400000
    assign --iterations 2 --queue spatial
}

long_chain() {
    begin 'a chain of 5,000 links'
    chain 5001 100
    demand 1,2,2000
    assign --horizon 12000 --bucket 500
}

long_horizon() {
    begin 'a horizon of 86,400 steps'
    grid 10 8
    demand 1,2,3000 3,4,3000 5,6,3000 7,8,3000 8,1,2000
    assign --horizon 86400 --period 86400 --step 1 --bucket 900
}

# Times that need more than 32 bits: links of 10,000 steps, with penalties of 36,000 between them.
# The chain is driven against the order of its nodes.
wide_labels() {
    begin 'a chain of 50,001 links and walks of more than 2,147,483,648 steps'
    awk -v n=50002 'BEGIN {
        print "node_id,zone_id" >"node.csv"
        print "link_id,from_node_id,to_node_id,length,free_speed,capacity" >"link.csv"
        print "node_id,ib_link_id,ob_link_id,penalty" >"movement.csv"
        for (k = 1; k <= n; k++) {
            print k "," (k == 1 ? 2 : k == n ? 1 : "") >"node.csv"
            if (k < n) print k "," k + 1 "," k ",166666,60,3600" >"link.csv"
            if (k > 1 && k < n) print k "," k "," k - 1 ",36000" >"movement.csv"
        }
    }'
    demand 1,2,20
    assign --step 1 --horizon 1300 --period 60 --iterations 2
}

many_iterations() {
    begin '1,000 iterations of a small network'
    grid 5 4
    demand 1,2,200 2,3,200 3,4,200 4,1,200 1,4,200
    assign --horizon 200 --period 20 --bucket 10 --iterations 1000
}

many_links() {
    begin '400,000 links'
    grid 317 2000
    demand 1,2,300 2,3,300 3,4,300 1000,1001,300 2000,1999,300
    assign --step 20 --horizon 160 --period 60
}

many_rows() {
    begin 'a demand table of 4,000,000 rows'
    grid 12 100
    echo o_zone_id,d_zone_id,volume >demand.csv
    awk 'BEGIN { for (k = 0; k < 4000000; k++) print k % 100 + 1 "," k % 101 % 100 + 1 ",0.3" }' \
        >>demand.csv
    assign
}

# Each of 1,008 nodes of a ring is joined to the next by 63 links, so that it has 3,969 turns.
many_turns() {
    begin 'a movement table of 4,000,000 rows at 1,008 nodes'
    awk -v n=1008 -v m=63 'BEGIN {
        print "node_id,zone_id" >"node.csv"
        print "link_id,from_node_id,to_node_id,length,capacity" >"link.csv"
        print "node_id,ib_link_id,ob_link_id,penalty,capacity" >"movement.csv"
        for (k = 0; k < n; k++) {
            print k "," (k % 252 == 0 ? k / 252 + 1 : "") >"node.csv"
            for (i = 0; i < m; i++)
                print k * m + i "," k "," (k + 1) % n "," 100 + i ",600" >"link.csv"
        }
        for (k = 0; k < n; k++) for (i = 0; i < m; i++) for (j = 0; j < m && rows < 4000000; j++) {
            rows++
            a = (k + n - 1) % n * m + i
            print k "," a "," k * m + j "," (i + j) % 9 "," (i == j ? 300 : "") >"movement.csv"
        }
    }'
    demand 1,2,500 2,3,500 4,1,500
    assign --horizon 400
}

# crossing LINKS: a node with so many links in and as many out, and all of its turns.
crossing() {
    begin "a movement table of $(($1 * $1)) rows at one node"
    awk -v m="$1" 'BEGIN {
        print "node_id,zone_id\n0," >"node.csv"
        print "link_id,from_node_id,to_node_id,length,capacity" >"link.csv"
        print "node_id,ib_link_id,ob_link_id,penalty,capacity" >"movement.csv"
        for (k = 1; k <= m; k++) {
            print k "," k % 40 + 1 "\n" m + k "," (k % 10 ? "" : k / 10 % 4 + 41) >"node.csv"
            print k "," k ",0," 100 + k % 7 * 50 ",900\n" m + k ",0," m + k ",200,900" >"link.csv"
        }
        for (a = 1; a <= m; a++) for (b = 1; b <= m; b++)
            print "0," a "," m + b "," (a + b) % 9 "," (a % 5 ? "" : 300) >"movement.csv"
    }'
    echo o_zone_id,d_zone_id,volume >demand.csv
    awk 'BEGIN { for (k = 1; k <= 40; k++) print k "," k % 4 + 41 ",50" }' >>demand.csv
    assign --horizon 100 --iterations 2
}

# Four times the rows should take about four times as long.
crossings() {
    crossing 1000
    crossing 2000
}

many_zones() {
    begin '1,000 zones'
    grid 32 1000
    echo o_zone_id,d_zone_id,volume >demand.csv
    awk 'BEGIN {
        for (o = 1; o <= 1000; o++) for (d = 1; d <= 1000; d++) if (o != d) print o "," d ",0.05"
    }' >>demand.csv
    assign --iterations 2
}

no_demand() {
    begin 'an empty demand'
    grid 100 100
    echo o_zone_id,d_zone_id,volume >demand.csv
    assign --iterations 3
}

many_counts() {
    begin 'the turns of 1,900,000 vehicles, in each step'
    grid 12 4
    demand 1,2,500000 2,3,500000 3,4,500000 4,1,400000
    counts --iterations 2 --queue spatial --bucket 1 --link 100
}

many_trips() {
    begin 'whole trips of 1,900,000 vehicles, in each step'
    grid 12 4
    demand 1,2,500000 2,3,500000 3,4,500000 4,1,400000
    assign --iterations 3 --bucket 1 --costs trips
}

many_waits() {
    begin 'waits before each of 1,500 links, in each step'
    grid 20 400
    echo o_zone_id,d_zone_id,volume >demand.csv
    awk 'BEGIN {
        for (o = 1; o <= 400; o++) for (k = 1; k < 4; k++) print o "," (o + 7 * k) % 400 + 1 ",400"
    }' >>demand.csv
    assign --iterations 2 --bucket 1 --costs trips
}

many_entries() {
    begin '1,000 zones and 16 starts'
    grid 32 1000
    demand 1,1000,300 500,20,300 999,500,300
    earlier
    compare '' skim --at '0;75;150;225;300;375;450;525;600;675;750;825;900;975;1050;1125'
}

# windowed TABLE CAPACITY..: the table with 64 windows in each row, as a last column. One begins
# every 18 steps, with these capacities in turn.
windowed() {
    table=$1
    shift
    awk -v capacities="$*" 'BEGIN {
        count = split(capacities, of, " ")
        for (k = 0; k < 64; k++) text = text (k ? ";" : "") 18 * k ":" of[k % count + 1]
    }
    { print $0 "," (NR == 1 ? "capacity_by_step" : text) }' "$table" >windowed
    mv windowed "$table"
}

many_windows() {
    begin '64 windows at each of 39,600 links and of 157,208 turns, 50,000 vehicles'
    grid 100 40
    awk -F, 'NR > 1 { into[$3] = into[$3] " " $1; out[$2] = out[$2] " " $1 }
    END {
        print "node_id,ib_link_id,ob_link_id"
        for (k = 1; k <= 10000; k++) {
            m = split(into[k], a, " ")
            n = split(out[k], b, " ")
            for (i = 1; i <= m; i++) for (j = 1; j <= n; j++) print k "," a[i] "," b[j]
        }
    }' link.csv >movement.csv
    windowed link.csv 1800 0 900
    windowed movement.csv none 0 600
    echo o_zone_id,d_zone_id,volume >demand.csv
    awk 'BEGIN { for (o = 1; o <= 40; o++) for (d = 1; d <= 40; d++) print o "," d ",32" }' \
        >>demand.csv
    assign
}

many_waves() {
    begin '1,900,000 vehicles and backward waves'
    grid 12 4
    demand 1,2,500000 2,3,500000 3,4,500000 4,1,400000
    assign --iterations 2 --queue newell --wave 15
}

# Waves that take longer than the horizon: each link keeps how many left it in each step.
long_waves() {
    begin 'a chain of 2,000 links, each with 20,000 steps of its wave'
    chain 2001 10000
    demand 1,2,2000
    assign --horizon 20000 --bucket 500 --step 1 --queue newell --wave 1
}

many_starts() {
    begin 'a start table of 1,900,000 rows'
    grid 12 4
    demand 1,2,500000 2,3,500000 3,4,500000 4,1,400000
    earlier --iterations 3
    sed -i '50s/,1800$/,300/' link.csv
    assign --iterations 2 --start
}

many_scales() {
    begin 'four scenarios of up to 1,900,000 vehicles'
    grid 12 4
    demand 1,2,500000 2,3,500000 3,4,500000 4,1,400000
    compare '--workers=1 --workers=16' sweep --scales '1;0.5;0.25;0.75' --queue spatial
}

many_audits() {
    begin 'an audit of 1,900,000 vehicles'
    grid 12 4
    demand 1,2,500000 2,3,500000 3,4,500000 4,1,400000
    earlier --queue spatial
    compare '' audit --queue spatial
}

for case in ${*:-$cases}; do $case; done
echo "$runs runs, $failures failures"
exit "$((failures > 0))"
