#!/bin/sh
# refusals.sh PROGRAM: runs a built program with each refusal that docs/FORMATS.md names but that of
# words, which words.sh tries, and of want of memory. Each table has each fault in each column; too
# many rows of link times would be too many bytes. What is wanted follows from that document by
# hand. Prints each case that isn't as wanted, and how many are; ends with 0 where all are. A line
# is a case, or one for each of the texts at its end.
checks=$(dirname "$(readlink -f "$0")")
. "$checks/cases.sh"
by=

# read_by TABLE: words that read a table; `by` says others where it isn't empty.
read_by() {
    case $1 in
        node | link) echo freeflow ;;
        movement | demand) echo assign ;;
        start) echo assign --start ;;
        times) echo skim --horizon 60 ;;
    esac
}

# faulty TABLE WHAT: a table is refused, at the line and with the code and column that WHAT says.
faulty() {
    # shellcheck disable=SC2046,SC2086
    ends 3 "$1 $2" ${by:-$(read_by "$1")}
}

# bad TABLE COLUMN CODE TEXT..: each of these texts is refused on line 2.
bad() {
    bad_table=$1 bad_column=$2 bad_code=$3
    shift 3
    for bad_text in "$@"; do
        field "$bad_table" 2 "$bad_column" "$bad_text"
        faulty "$bad_table" "line 2: $bad_code $bad_column"
    done
}

# missing TABLE COLUMN..: each of these columns is required.
missing() {
    bad_table=$1
    shift
    for bad_column in "$@"; do
        without "$bad_table" "$bad_column"
        faulty "$bad_table" "line 1: E1 MissingColumn $bad_column"
    done
}

# The node table.
missing node node_id
text node ''; faulty node 'line 1: E1 MissingColumn node_id'
text node 'node_id,\0377\n1,1\n'; faulty node 'line 1: E2 BadRecord -'
change node '3s/$/,/'; faulty node 'line 3: E2 BadRecord -'
change node '3s/,//'; faulty node 'line 3: E2 BadRecord -'
field node 3 name "$(printf '\377')"; faulty node 'line 3: E2 BadRecord -'
rows node %.0f, 10 1000007; faulty node 'line 1000002: E12 TooMany -'
bad node node_id 'E3 EmptyField' '' ' '
bad node node_id 'E4 NotNumber' x 1.5 1. .0 +1 1e0 '1 1' '- 1' none
bad node node_id 'E5 OutOfRange' -1 -0 -7.0 9223372036854775808
field node 3 node_id 001.00; faulty node 'line 3: E6 Duplicate node_id'
bad node zone_id 'E4 NotNumber' x 1.5 +1 '- 1'
bad node zone_id 'E5 OutOfRange' -2 -0 9223372036854775808
for zone in '' 0 -1 -1.0 -01 9223372036854775807; do
    field node 3 zone_id "$zone"; done_with 'nodes 3' freeflow
done

# The link table.
missing link link_id from_node_id to_node_id length
text link ''; faulty link 'line 1: E1 MissingColumn link_id'
change link '3s/$/,/'; faulty link 'line 3: E2 BadRecord -'
rows link %.0f,1,2,1,,, 100 1000098; faulty link 'line 1000002: E12 TooMany -'
for column in link_id from_node_id to_node_id; do
    bad link "$column" 'E3 EmptyField' ''
    bad link "$column" 'E4 NotNumber' x 1.5
    bad link "$column" 'E5 OutOfRange' -1 9223372036854775808
done
field link 3 link_id 10.0; faulty link 'line 3: E6 Duplicate link_id'
bad link from_node_id 'E7 UnknownNode' 9
bad link to_node_id 'E7 UnknownNode' 9
bad link directed 'E10 Undirected' 0 0.0 false no FALSE No ' 0 '
for directed in 1 '' true 00 0.00 f; do
    field link 2 directed "$directed"; done_with 10,10,125 freeflow
done
bad link length 'E3 EmptyField' ''
bad link lanes 'E5 OutOfRange' 100.001
for column in length lanes free_speed capacity; do
    bad link "$column" 'E4 NotNumber' x . 1e 1e1000 1.2.3 '1 0' 0x1 "$(printf %065d 1)"
    bad link "$column" 'E5 OutOfRange' -1 -0.0001 1000000000.001 1e10
done
bad link free_speed 'E5 OutOfRange' 0 -0 0.0009
bad link free_speed 'E11 TooSlow' 0.05
change link 's/,1000,/,1000000,/'
bad link free_speed 'E11 TooSlow' ''
change link 's/,1000,/,1000000,/'; without link free_speed
faulty link 'line 2: E11 TooSlow free_speed'
field link 2 length 1000.001
ends 3 'link line 2: E11 TooSlow free_speed' freeflow --length-unit km
field link 2 length 0; done_with 10,1,1 freeflow
field link 2 length +.5e3; done_with 10,5,62 freeflow
field link 2 lanes 100; done_with 10,10,12500 freeflow
field link 2 lanes ''; done_with 10,10,125 freeflow
field link 2 lanes 0; done_with 10,10,1 freeflow
field link 2 free_speed ''; done_with 10,12,125 freeflow --speed-unit mph
field link 2 capacity 1000000000.0009; done_with 10,10,125 freeflow
bad link capacity_by_step 'E4 NotNumber' x '0:600;' '0:none' '0:600; 9:0' ':600' '+0:600' '0:-1;x'
bad link capacity_by_step 'E5 OutOfRange' '1:600' '0:1;0:2' '0:1;86401:2' '0:-1' \
    "0:0$(seq -s '' -f ';%.0f:0' 64)"

# The movement table.
missing movement node_id ib_link_id ob_link_id
text movement '\0357\0273\0277'; faulty movement 'line 1: E1 MissingColumn node_id'
text movement '\n\n'; faulty movement 'line 1: E1 MissingColumn node_id'
change movement '2s/$/,/'; faulty movement 'line 2: E2 BadRecord -'
for column in node_id ib_link_id ob_link_id; do
    bad movement "$column" 'E3 EmptyField' ''
    bad movement "$column" 'E4 NotNumber' x 1.5
    bad movement "$column" 'E5 OutOfRange' -1 9223372036854775808
done
bad movement node_id 'E7 UnknownNode' 9
bad movement ib_link_id 'E8 UnknownLink' 9
bad movement ob_link_id 'E8 UnknownLink' 9
bad movement ib_link_id 'E9 WrongTurn' 20
bad movement ob_link_id 'E9 WrongTurn' 10
rows movement %.1f,010,20,,, 2 2; faulty movement 'line 3: E6 Duplicate ob_link_id'
rows link %.0f,1,2,1,,, 1001 2000
rows link %.0f,2,3,1,,, 5001 9000
awk 'BEGIN {
    for (a = 1001; a <= 2000; a++) for (b = 5001; b <= 9000; b++) print "2," a "," b ",,,"
}' >>movement.csv
faulty movement 'line 4000002: E12 TooMany -'
bad movement penalty 'E5 OutOfRange' 36000.001
for column in penalty capacity; do
    bad movement "$column" 'E4 NotNumber' x 1e none
    bad movement "$column" 'E5 OutOfRange' -1 1000000000.001
done
bad movement capacity_by_step 'E4 NotNumber' x '0:None' 'none' '0:none;' '0:none; 9:0'
bad movement capacity_by_step 'E5 OutOfRange' '1:none' '0:none;0:0' '0:none;86401:none' '0:-1' \
    "0:none$(seq -s '' -f ';%.0f:none' 64)"
field movement 2 penalty 60; done_with '0,1,3,100,130,arrived,10;20,100;120' assign
field movement 2 capacity 0; done_with '0,1,3,100,,running,10;20,100' assign
field movement 2 capacity_by_step '0:0;150:none'
done_with '0,1,3,100,160,arrived,10;20,100;150' assign
text movement ''; done_with 'arrived 3' assign
gone movement; done_with 'arrived 3' assign

# The demand table.
missing demand o_zone_id d_zone_id volume
text demand ''; faulty demand 'line 1: E1 MissingColumn o_zone_id'
change demand '2s/$/,/'; faulty demand 'line 2: E2 BadRecord -'
yes 1,1,1 | head -n 4000000 >>demand.csv; faulty demand 'line 4000002: E12 TooMany -'
for column in o_zone_id d_zone_id volume; do
    bad demand "$column" 'E3 EmptyField' ''
    bad demand "$column" 'E4 NotNumber' x 1e
    bad demand "$column" 'E5 OutOfRange' -1
done
bad demand o_zone_id 'E5 OutOfRange' 9223372036854775808
bad demand d_zone_id 'E5 OutOfRange' 9223372036854775808
bad demand volume 'E5 OutOfRange' 1000000000.001
rows demand 9,3,%.0f 1 1; done_with 'unrouted 1' assign
rows demand 3,3,%.0f 9 9; done_with 'vehicles 3' assign

# The start table of an assignment, and of an audit.
missing start agent_id o_zone_id d_zone_id link_ids
text start ''; faulty start 'line 1: E1 MissingColumn agent_id'
change start '2s/$/,/'; faulty start 'line 2: E2 BadRecord -'
start_columns() {
    for column in "$@"; do
        bad start "$column" 'E3 EmptyField' ''
        bad start "$column" 'E4 NotNumber' x 1.5
        bad start "$column" 'E5 OutOfRange' -1 9223372036854775808
    done
}
lists() {
    for column in "$@"; do
        bad start "$column" 'E4 NotNumber' x ';' '10;' ';10' '10;;20' '10; 20' '-1;x'
        bad start "$column" 'E5 OutOfRange' -1 '10;9223372036854775808'
    done
}
start_columns agent_id o_zone_id d_zone_id
seq 3 2000000 | sed 's/$/,1,3,,,,,/' >>start.csv; faulty start 'line 2000002: E12 TooMany -'
field start 3 agent_id 0.0; faulty start 'line 3: E6 Duplicate agent_id'
lists link_ids
by='audit --horizon 60 --period 30'
missing start agent_id o_zone_id d_zone_id departure_step arrival_step status link_ids entry_steps
text start ''; faulty start 'line 1: E1 MissingColumn agent_id'
change start '2s/$/,/'; faulty start 'line 2: E2 BadRecord -'
start_columns agent_id o_zone_id d_zone_id departure_step
bad start arrival_step 'E4 NotNumber' x 1.5
bad start arrival_step 'E5 OutOfRange' -1 9223372036854775808
field start 2 status "$(printf '\377')"; faulty start 'line 2: E2 BadRecord -'
lists link_ids entry_steps

# The table of link times, of an audit and of a skim.
for by in 'audit --horizon 60 --period 30' 'skim --horizon 60'; do
    missing times link_id from_step to_step entered travel_steps free_steps
    text times ''; faulty times 'line 1: E1 MissingColumn link_id'
    change times '2s/$/,/'; faulty times 'line 2: E2 BadRecord -'
    for column in link_id from_step to_step entered travel_steps free_steps; do
        bad times "$column" 'E3 EmptyField' ''
        bad times "$column" 'E4 NotNumber' x 1.5
        bad times "$column" 'E5 OutOfRange' -1 9223372036854775808
    done
    bad times travel_steps 'E5 OutOfRange' 0 4294967296
    bad times link_id 'E8 UnknownLink' 9
    bad times link_id 'E13 Disagrees' 20
    bad times from_step 'E13 Disagrees' 1
    bad times to_step 'E13 Disagrees' 49
    bad times free_steps 'E13 Disagrees' 11
    rows times 20,60,%.0f,0,10,10 110 110; faulty times 'line 6: E13 Disagrees link_id'
    rows times %.0f,60,110,0,10,10 9 9; faulty times 'line 6: E8 UnknownLink link_id'
    change times 5d; faulty times 'line 5: E13 Disagrees -'
    change times '2,$d'; faulty times 'line 2: E13 Disagrees -'
done
by=
field times 2 travel_steps 4294967295; done_with 1,3,0,4294967305 skim --horizon 60

# tables_of COMMAND: the tables that must be there, in the order in which they are read.
tables_of() {
    case $1 in
        freeflow) echo node link ;;
        assign) echo node link demand start ;;
        skim) echo node link times ;;
        counts | sweep) echo node link demand ;;
        audit) echo node link demand start times ;;
    esac
}

# faults_of WORDS..: each table of a command in turn isn't there, is a folder, or has a byte too
# many, or none. Where it is refused those behind it are gone too, since they aren't read any more.
faults_of() {
    tables=$(tables_of "$1")
    for table in $tables; do
        behind=${tables#*"$table"}
        gone "$table"; ends 4 "read fault in $table" "$@"
        folder_for "$table.csv"; ends 4 "read fault in $table" "$@"
        truncate -s 268435457 "$table.csv"
        for other in $behind; do gone "$other"; done
        ends 7 "size: table $table limit 268435456" "$@"
        text "$table" ''
        for other in $behind; do gone "$other"; done
        case $table in
            node | link) first=${table}_id ;;
            demand) first=o_zone_id ;;
            start) first=agent_id ;;
            times) first=link_id ;;
        esac
        ends 3 "$table line 1: E1 MissingColumn $first" "$@"
    done
    [ "$1" != freeflow ] || return
    folder_for movement.csv; ends 4 'read fault in movement' "$@"
}
faults_of freeflow
faults_of assign --start
faults_of skim --horizon 60
faults_of counts
faults_of sweep --scales 1
faults_of audit --horizon 60 --period 30

# Tables that a command doesn't read.
for table in movement demand start times; do
    text $table x; done_with 'nodes 3' freeflow
done
for table in node link movement demand; do gone $table; done
done_with 'nodes 4' demo 2 --horizon 1
for table in demand start; do text $table x; done_with 1,3,0,20 skim --horizon 60; done
for table in start times; do
    text $table x; done_with 'arrived 3' assign
    text $table x; done_with 'arrived 3' counts
    text $table x; done_with 'scenarios 1' sweep --scales 1
done

# What is too large. 777 links over 86,400 steps are past the limit of a loading, 195 past that of
# a sweep; 513 zones and 64 starts past that of a skim.
many_links() {
    rows link "%.0f,1,2,1000,1,60,600" 101 $((98 + $1))
    sed -i 1q times.csv
    sed '1d; s/,.*/,0,86400,0,10,10/' link.csv >>times.csv
}
size='size: links 777 steps 86400 limit 67108864'
many_links 777; ends 7 "$size" assign --horizon 86400
many_links 777; ends 7 "$size" counts --horizon 86400
many_links 777; ends 7 "$size" skim --horizon 86400 --bucket 86400
many_links 777; ends 7 "$size" audit --horizon 86400 --bucket 86400
ends 7 'size: links 14160 steps 86400 limit 67108864' demo 60 --horizon 86400
many_links 777; text demand 'o_zone_id,d_zone_id,volume\n1,3,1e9\n'
ends 7 "$size" assign --horizon 86400
many_links 777; text demand 'o_zone_id,d_zone_id,volume\n1,3,x\n'
ends 3 'demand line 2: E4 NotNumber volume' assign --horizon 86400
many_links 195
ends 7 'size: links 195 steps 86400 limit 16777216' sweep --scales 1 --horizon 86400
size='size: demand line 3 vehicles 2000001 limit 2000000'
for words in assign counts 'sweep --scales 1' 'sweep --scales 0.1;1' 'audit --horizon 60'; do
    rows demand 1,3,%.0f 1999998 1999998
    ends 7 "$size" $words
done
seq 513 | awk 'BEGIN { print "node_id,zone_id" } { print $1 "," $1 }' >node.csv
ends 7 'size: skim 16809984 limit 16777216' skim --horizon 60 --at "0$(printf ';0%.0s' $(seq 63))"

# The order of checks: words before tables, lines before columns, columns from left to right.
gone node; usage assign --step 0
field link 3 link_id x; field link 2 capacity x; faulty link 'line 2: E4 NotNumber capacity'
field link 2 capacity x; field link 2 length -1; faulty link 'line 2: E5 OutOfRange length'
field link 2 from_node_id 9; field link 2 to_node_id x
faulty link 'line 2: E7 UnknownNode from_node_id'

# What an audit finds: first in each row what was to be done, then what became of it, then the link
# times.
audited() {
    ends 8 "audit: $1" audit --horizon 60 --period 30
}
differs() {
    for other in "$4" "$5"; do
        field "$1" "$2" "$3" "$other"; audited "$1 line $2 $3"
    done
}
differs start 3 agent_id 0 9
differs start 3 o_zone_id 3 9
differs start 3 d_zone_id 1 9
differs start 3 departure_step 14 16
differs start 3 link_ids '20;10' '10;99'
differs start 3 arrival_step '' 36
differs start 3 status running ''
differs start 3 entry_steps 15 '15;26'
differs times 4 entered 2 4
differs times 4 travel_steps 9 11
change start 4d; audited 'start line 4 -'
change start '4p'; audited 'start line 5 agent_id'
field start 2 arrival_step 26; field start 4 link_ids 10; audited 'start line 4 link_ids'
field start 2 arrival_step 26; change start 4d; audited 'start line 4 -'
field start 3 status x; field start 2 entry_steps ''; audited 'start line 2 entry_steps'
field times 2 entered 4; field start 4 arrival_step 46; audited 'start line 4 arrival_step'
field times 3 entered 1; field times 2 travel_steps 11; audited 'times line 2 travel_steps'

# Outputs that can't be made, and a standard output that is full.
unwritten() {
    folder_for "$1"
    shift
    ends 5 '' "$@"
}
unwritten link_performance.csv freeflow
unwritten agent.csv assign
unwritten link_performance.csv assign
unwritten gap.csv assign
unwritten origin_wait.csv assign --costs trips
unwritten gap.csv assign --costs trips
unwritten skim.csv skim --horizon 60
unwritten counts.csv counts
unwritten sweep.txt sweep --scales 1

# unprinted STATUS WORDS..: a run whose standard output is full ends so.
unprinted() {
    wanted=$1
    shift
    cases=$((cases + 1))
    "$program" "$@" >/dev/full 2>watch
    status=$?
    [ "$status" -eq "$wanted" ] ||
        fails "dta $*$told, a full standard output: wanted $wanted, got $status"
    begin_case
}
unprinted 5 freeflow
unprinted 5 assign
unprinted 5 demo 2
unprinted 5 skim --horizon 60
unprinted 5 counts
unprinted 5 sweep --scales 1
unprinted 5 audit --horizon 60 --period 30
unprinted 2 freeflow --step 0
text node ''; unprinted 3 freeflow
gone node; unprinted 4 freeflow
truncate -s 268435457 node.csv; unprinted 7 freeflow
change start 4d; unprinted 8 audit --horizon 60 --period 30

end_cases
