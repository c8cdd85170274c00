#!/bin/sh
# hostile.sh PROGRAM [GROUP..]: runs a built program where files, streams, memory and the system
# let it down. Tells of each case what is wanted and what came, then how many failed; ends with 0
# where none did. Groups of cases are the functions that `groups` names, and all of them run where
# none is said. Where it is run by root it also tries a full disk (a small file system in memory),
# and calls the program as another user. It takes some minutes, and 1 GB in the folder of mktemp.
groups='folder_without_writing full_outputs full_waits full_disk broken_streams closed_streams
interrupted_calls lacking_syncs no_files pipes longest_tables long_rows odd_bytes most_vehicles little_memory little_memory_for_shares
little_memory_for_threads no_threads times_tables skims_and_counts windows waves start_tables sweeps
sweeps_in_little_memory audits audited_tables kills'
checks=$(dirname "$(readlink -f "$0")")
more='[GROUP..]'
. "$checks/begin.sh"
work=$folder
trap 'umount "$work/small" 2>/dev/null; rm -rf "$work"' EXIT
chmod 755 "$work"
cp "$program" "$work/program" && chmod 755 "$work/program" || exit 2
program=$work/program
whole=$work/whole
cases=0
is_root=$([ "$(id -u)" = 0 ] && echo yes)
usage='usage: dta COMMAND [options]'

# check NAME WANTED GOT: tells of a case.
check() {
    cases=$((cases + 1))
    if [ "$2" = "$3" ]; then echo "ok: $1: $3"; else fails "$1: wanted $2, got $3"; fi
}

# A new folder with two links in a line and so many vehicles, which is then the current one.
begin() {
    cd "$work" || exit 2
    rm -rf "$work/case"
    mkdir "$work/case"
    chmod 777 "$work/case"
    cd "$work/case" || exit 2
    "$checks/two_links.sh" "${1:-3000}"
}

# Runs the program with these words. Report and Watch go to files beside the folder.
run() {
    "$program" "$@" >"$work/report" 2>"$work/watch"
    status=$?
}

# What became of an output, beside the text of a run with ample room and that of an earlier run.
state_of() {
    if [ -L "$1" ]; then echo link
    elif [ -d "$1" ]; then echo folder
    elif [ ! -e "$1" ]; then echo none
    elif [ ! -s "$1" ]; then echo empty
    elif cmp -s "$1" "$whole/$1"; then echo whole
    elif cmp -s "$1" "$work/earlier"; then echo earlier
    elif cmp -s -n "$(wc -c <"$1")" "$1" "$whole/$1"; then echo part
    else echo other; fi
}

# The states of the three files, then the first line of Report, or that it is whole or empty.
outcome() {
    text=$status
    for name in agent.csv link_performance.csv gap.csv; do text="$text $(state_of $name)"; done
    if [ ! -s "$work/report" ]; then echo "$text -"
    elif cmp -s "$work/report" "$whole/report"; then echo "$text report"
    else echo "$text $(head -n 1 "$work/report")"; fi
}

# Runs a command as a user who is not root.
as_other() {
    if [ "$is_root" ]; then
        setpriv --reuid=65534 --regid=65534 --clear-groups "$@"
    else
        "$@"
    fi
}

# What a run with ample room writes, over so many vehicles and with further words.
keep_whole() {
    begin "$1"
    shift
    run assign "$@"
    rm -rf "$whole"
    mkdir "$whole"
    cp ./*.csv "$work/report" "$whole"
    check "ample room" '0 whole whole whole report' "$(outcome)"
}

folder_without_writing() {
    begin
    chmod 555 .
    as_other "$program" assign >"$work/report"; status=$?
    check 'a folder that cannot be written, assign' '5 none none none -' "$(outcome)"
    as_other "$program" freeflow >"$work/report"; status=$?
    check 'a folder that cannot be written, freeflow' '5 none none none -' "$(outcome)"
    as_other "$program" demo 2 >"$work/report"; status=$?
    check 'a folder that cannot be written, demo' '0 none none none nodes 4' "$(outcome)"
    as_other "$program" assign --period 0 >"$work/report"; status=$?
    check 'a folder that cannot be written, refused words' "2 none none none $usage" "$(outcome)"
    as_other "$program" counts >"$work/report"; status=$?
    check 'a folder that cannot be written, counts' '5 none none none -' "$(outcome)"
    chmod 777 .
    chmod 000 movement.csv 2>/dev/null || : >movement.csv
    chmod 000 movement.csv demand.csv
    as_other "$program" assign >"$work/report"; status=$?
    check 'a table that may not be read' '4 none none none read fault in movement' "$(outcome)"
}

# Each output in turn is a device that is full, then a folder, then a link to itself.
full_outputs() {
    for kind in /dev/full folder itself; do
        for name in agent.csv link_performance.csv gap.csv; do
            begin
            case $kind in
                folder) mkdir "$name"; was=folder ;;
                itself) ln -s "$name" "$name"; was='link' ;;
                *) ln -s "$kind" "$name"; was='link' ;;
            esac
            run assign
            case $name in
                agent.csv) wanted="5 $was none none -" ;;
                link_performance.csv) wanted="5 whole $was none -" ;;
                *) wanted="5 whole whole $was -" ;;
            esac
            check "$name is $kind" "$wanted" "$(outcome)"
        done
    done
}

# The table of origin waits in turn is such a device, a folder and a link; by link times it is left
# as it is.
full_waits() {
    for kind in /dev/full folder itself; do
        for costs in trips links; do
            begin
            case $kind in
                folder) mkdir origin_wait.csv; was=folder ;;
                itself) ln -s origin_wait.csv origin_wait.csv; was='link' ;;
                *) ln -s "$kind" origin_wait.csv; was='link' ;;
            esac
            run assign --costs $costs
            wanted="5 whole whole none - $was"
            [ $costs = trips ] || wanted="0 whole whole whole report $was"
            check "origin_wait.csv is $kind, by $costs" "$wanted" \
                "$(outcome) $(state_of origin_wait.csv)"
        done
    done
}

# Small file systems that are full at some output or none; outputs are put in their order.
full_disk() {
    [ "$is_root" ] || { echo 'not tried: a full disk needs root'; return; }
    mkdir -p "$work/small"
    for pages in 4 5 8 16 20 21 22 23 24 25 26 27 28 29 30 60; do
        mount -t tmpfs -o "size=$((pages * 4096))" tmpfs "$work/small" || {
            echo 'not tried: no file system can be mounted'
            return
        }
        begin
        cp ./*.csv "$work/small" && cd "$work/small" || exit 2
        run assign
        case $(outcome) in
            '5 part none none -' | '5 empty none none -' | '5 none none none -') got=by-order ;;
            '5 whole empty none -' | '5 whole none none -' | '5 whole whole empty -' | \
                '5 whole whole none -' | '0 whole whole whole report') got=by-order ;;
            *) got=$(outcome) ;;
        esac
        check "a disk of $pages pages ($(outcome))" by-order "$got"
        cd "$work" || exit 2
        umount "$work/small"
    done
}

# Standard streams that are full, closed, or pipes that nobody reads. A run over closed streams may
# end with 5 or, where the system takes what is put there, with 0, and the tables must be whole.
broken_streams() {
    begin
    : >"$work/report"
    "$program" assign >/dev/full; status=$?
    check 'a full standard output' '5 whole whole whole -' "$(outcome)"
    begin
    "$program" assign --watch 10 >"$work/report" 2>/dev/full; status=$?
    check 'a full standard error' '5 none none none -' "$(outcome)"
    "$program" assign --period 0 >/dev/full; check 'refused words, a full output' 2 $?
    rm -f node.csv
    "$program" assign >/dev/full; check 'no node table, a full output' 4 $?
    begin x
    "$program" assign >/dev/full; check 'a refused table, a full output' 3 $?
    begin 2000001
    "$program" assign >/dev/full; check 'too many vehicles, a full output' 7 $?
}

# fits NAME GOT: like check, where any of the further words is wanted.
fits() {
    name=$1
    got=$2
    shift 2
    for wanted in "$@"; do
        if [ "$got" = "$wanted" ]; then check "$name" "$wanted" "$got"; return; fi
    done
    check "$name" "one of: $(printf '%s, ' "$@")" "$got"
}

closed_streams() {
    : >"$work/report"
    begin
    "$program" assign >&-; status=$?
    fits 'standard output closed' "$(outcome)" '5 whole whole whole -' '0 whole whole whole -'
    begin
    "$program" assign --watch 10 >"$work/report" 2>&-; status=$?
    fits 'standard error closed' "$(outcome)" '5 none none none -' '0 whole whole whole report'
    : >"$work/report"
    begin
    "$program" assign --watch 10 <&- >&- 2>&-; status=$?
    fits 'all three closed' "$(outcome)" '5 none none none -' '0 whole whole whole -' \
        '5 whole whole whole -'
    begin
    { sleep 1; "$program" assign; echo $? >"$work/status"; } | true
    status=$(cat "$work/status")
    check 'a pipe that nobody reads' '5 whole whole whole -' "$(outcome)"
    begin
    { sleep 1; "$program" assign --watch 10 2>&1 >"$work/report"; echo $? >"$work/status"; } | true
    status=$(cat "$work/status")
    check 'Watch to a pipe that nobody reads' '5 none none none -' "$(outcome)"
}

# A library by which each third read and write is interrupted, as INTERRUPTED says, and by which
# syncs end with the number SYNC.
make_answers() {
    command -v cc >/dev/null || { echo 'not tried: there is no C compiler'; return 1; }
    cc -shared -fPIC -o "$work/answers.so" -x c - <<'C'
#define _GNU_SOURCE
#include <errno.h>
#include <stdlib.h>
#include <sys/syscall.h>
#include <unistd.h>
static int calls;
static int is_interrupted(void) {
    if (!getenv("INTERRUPTED") || __sync_add_and_fetch(&calls, 1) % 3) return 0;
    errno = EINTR;
    return 1;
}
ssize_t read(int file, void *bytes, size_t count) {
    return is_interrupted() ? -1 : syscall(SYS_read, file, bytes, count);
}
ssize_t write(int file, const void *bytes, size_t count) {
    return is_interrupted() ? -1 : syscall(SYS_write, file, bytes, count);
}
int fsync(int file) {
    if (!getenv("SYNC")) return syscall(SYS_fsync, file);
    errno = atoi(getenv("SYNC"));
    return -1;
}
C
}

# answered NAME WANTED SETTING: how a run ends by these answers of the system.
answered() {
    begin
    env LD_PRELOAD="$work/answers.so" "$3" "$program" assign --watch 100 \
        >"$work/report" 2>"$work/watch"
    status=$?
    check "$1" "$2" "$(outcome)"
}

# What a signal interrupts is tried again, as FUSE may ask.
interrupted_calls() {
    make_answers || return
    answered 'reads and writes that are interrupted' '0 whole whole whole report' INTERRUPTED=1
}

# A file system that knows no sync, and a disk that fails: EINVAL, EROFS, ENOSYS, ENOTSUP; EIO,
# ENOSPC, EDQUOT.
lacking_syncs() {
    make_answers || return
    for number in 22 30 38 95; do
        answered "a sync that ends with $number" '0 whole whole whole report' SYNC=$number
    done
    for number in 5 28 122; do
        answered "a sync that ends with $number" '5 whole whole whole report' SYNC=$number
    done
}

# What stands in place of a table.
no_files() {
    for name in node link movement demand; do
        for kind in folder itself; do
            begin
            rm -f "$name.csv"
            if [ $kind = folder ]; then mkdir "$name.csv"; else ln -s "$name.csv" "$name.csv"; fi
            run assign
            check "$name.csv is $kind" "4 none none none read fault in $name" "$(outcome)"
        done
        begin
        rm -f "$name.csv"
        run assign
        wanted="4 none none none read fault in $name"
        [ $name = movement ] && wanted='0 whole whole whole report'
        check "no $name.csv" "$wanted" "$(outcome)"
        begin
        rm -f "$name.csv"
        ln -s /dev/zero "$name.csv"
        run assign
        check "$name.csv without end" "7 none none none size: table $name limit 268435456" \
            "$(outcome)"
    done
}

# piped NAME TEXT WANTED: node.csv is a pipe that gives this text, in pieces of one byte.
piped() {
    begin
    rm -f node.csv
    mkfifo node.csv
    printf "$2" >"$work/text"
    { dd if="$work/text" of=node.csv bs=1 2>/dev/null; } &
    writer=$!
    run assign
    kill $writer 2>/dev/null
    wait $writer 2>/dev/null
    check "$1" "$3" "$(outcome)"
}

pipes() {
    piped 'a pipe that gives a whole table' 'node_id,zone_id\n1,1\n2,\n3,3\n' \
        '0 whole whole whole report'
    piped 'a pipe that ends in the header' 'node_id,zo' \
        '3 none none none link line 2: E7 UnknownNode from_node_id'
    piped 'a pipe that ends in a name that is wanted' 'node_i' \
        '3 none none none node line 1: E1 MissingColumn node_id'
    piped 'a pipe that ends in a row' 'node_id,zone_id\n1,1\n2' \
        '3 none none none node line 3: E2 BadRecord -'
    piped 'a pipe that gives nothing' '' '3 none none none node line 1: E1 MissingColumn node_id'
}

# longer FILE BYTES: appends line feeds until the file has so many bytes.
longer() {
    size=$(wc -c <"$1")
    head -c $(($2 - size)) /dev/zero | tr '\0' '\n' >>"$1"
}

# Tables of the most bytes and of one more; empty lines are passed over.
longest_tables() {
    for name in node link movement demand; do
        begin
        [ $name = movement ] && printf 'node_id,ib_link_id,ob_link_id\n2,10,20\n' >movement.csv
        longer $name.csv 268435456
        run assign
        check "$name.csv of 268435456 bytes" '0 whole whole whole report' "$(outcome)"
        printf '\n' >>$name.csv
        run assign
        rm -f agent.csv link_performance.csv gap.csv
        check "$name.csv of one byte more" "7 none none none size: table $name limit 268435456" \
            "$(outcome)"
    done
}

# Fields and rows of a length that nobody writes by hand.
long_rows() {
    begin
    awk 'BEGIN {
        for (line = 0; line < 4; line++) {
            for (k = 1; k <= 100000; k++) printf line ? "," : "x%d,", k
            print line == 0 ? "node_id,zone_id" : line == 2 ? "2," : line "," line
        }
    }' >node.csv
    run assign
    check 'a header of 100,002 columns' '0 whole whole whole report' "$(outcome)"
    head -c 10000000 /dev/zero | tr '\0' 'x' >"$work/long"
    begin
    { echo node_id,name,zone_id; printf '1,"'; cat "$work/long"; printf '",1\n2,,\n3,,3\n'; } \
        >node.csv
    run assign
    check 'a row of 10 MB' '0 whole whole whole report' "$(outcome)"
    begin
    { echo node_id,zone_id; tr x 0 <"$work/long"; printf '1,1\n2,\n3,3\n'; } >node.csv
    run assign
    check 'an identifier of 10 MB, with leading zeros' '0 whole whole whole report' "$(outcome)"
    begin
    { echo o_zone_id,d_zone_id,volume; printf 1,3,; tr x 0 <"$work/long"; echo 3; } >demand.csv
    run assign
    check 'a quantity of 10 MB' '3 none none none demand line 2: E4 NotNumber volume' "$(outcome)"
    begin
    { echo o_zone_id,d_zone_id,volume; tr x , <"$work/long"; echo; } >demand.csv
    run assign
    check 'a row of 10,000,001 fields' '3 none none none demand line 2: E2 BadRecord -' \
        "$(outcome)"
}

# odd_node NAME TEXT WANTED: a run over a node table of this text.
odd_node() {
    begin
    printf "$2" >node.csv
    run assign
    check "$1" "$3" "$(outcome)"
}

odd_bytes() {
    odd_node 'a quote that never ends, in a row' 'node_id,zone_id\n1,"1\n2,\n3,3\n' \
        '3 none none none node line 2: E4 NotNumber zone_id'
    odd_node 'a quote that never ends, in the header' '"node_id,zone_id\n1,1\n' \
        '3 none none none node line 1: E1 MissingColumn node_id'
    odd_node 'a quote that never ends, passed over' \
        'node_id,zone_id,name\n1,1,\n2,,\n3,3,"x\n4,4,\n' '0 whole whole whole report'
    odd_node 'a NUL in an identifier' 'node_id,zone_id\n1,1\n2\0,\n3,3\n' \
        '3 none none none node line 3: E4 NotNumber node_id'
    odd_node 'a NUL in the name of a column' 'node_id\0,zone_id\n1,1\n2,\n3,3\n' \
        '3 none none none node line 1: E1 MissingColumn node_id'
    odd_node 'a NUL that is passed over' 'node_id,zone_id,name\n1,1,\0\n2,,\n3,3,\n' \
        '0 whole whole whole report'
    odd_node 'NULs alone' '\0\0\0\0' '3 none none none node line 1: E1 MissingColumn node_id'
}

# The most vehicles, all of them over one link, and one more.
most_vehicles() {
    begin 2000000
    printf 'node_id,zone_id\n1,1\n3,3\n' >node.csv
    printf 'link_id,from_node_id,to_node_id,length,free_speed,capacity\n1,1,3,100,60,3600\n' \
        >link.csv
    for words in --plain '--workers 16'; do
        run assign $words
        got=$(sed -n -e 3p -e 6,8p "$work/report" | tr '\n' ' ')
        check "2,000,000 vehicles on one link, $words" \
            '0 vehicles 2000000 arrived 7194 running 6 waiting 1992800 2000001' \
            "$status $got$(wc -l <agent.csv)"
    done
    begin 2000001
    run assign
    check '2,000,001 vehicles' \
        '7 none none none size: demand line 2 vehicles 2000001 limit 2000000' "$(outcome)"
}

# A ring of 65,536 links, which is driven against the order of its nodes, with so many zones at
# every 256th node, and vehicles from each zone to the one before it.
ring() {
    awk -v n=65536 -v zones="$1" 'BEGIN {
        print "node_id,zone_id" >"node.csv"
        print "link_id,from_node_id,to_node_id,length,free_speed" >"link.csv"
        print "o_zone_id,d_zone_id,volume" >"demand.csv"
        for (k = 0; k < n; k++) {
            print k "," (k % 256 == 0 && k / 256 < zones ? k / 256 + 1 : "") >"node.csv"
            print k "," (k + 1) % n "," k ",100,60" >"link.csv"
        }
        for (z = 1; z < zones; z++) print z + 1 "," z ",10" >"demand.csv"
    }'
}

# in_memory KILOBYTES WORDS: a run over such a ring in so little memory, links times the horizon at
# their limit.
in_memory() {
    rm -f agent.csv link_performance.csv gap.csv
    (ulimit -v "$1" && shift && exec "$program" assign --horizon 1024 "$@") \
        >"$work/report" 2>"$work/watch"
    status=$?
}

# Links times the horizon at the limit, past it, and in ever less memory: status 6, with nothing
# put, or 0.
little_memory() {
    begin
    ring 2
    run assign --horizon 1025
    check '65,536 links times 1,025 steps' \
        '7 none none none size: links 65536 steps 1025 limit 67108864' "$(outcome)"
    for kilobytes in 2000000 1000000 700000 200000 50000 10000 5000; do
        for words in --plain --workers=2; do
            in_memory $kilobytes $words
            fits "65,536 links times 1,024 steps in $kilobytes KB, $words" "$(outcome)" \
                '6 none none none -' '0 other other other nodes 65536'
        done
    done
}

# Vehicles to many zones, whose labels take up to four shares side by side: more than there is.
little_memory_for_shares() {
    begin
    ring 40
    for kilobytes in 2000000 1000000 500000; do
        in_memory $kilobytes --workers=4
        check "40 zones, 65,536 links times 1,024 steps in $kilobytes KB" '6 none none none -' \
            "$(outcome)"
    done
}

# A small run in ever less memory, with workers whose threads may not be had.
little_memory_for_threads() {
    for kilobytes in $(seq 4000 100 6000) 10000 50000 200000; do
        begin
        (ulimit -v $kilobytes && exec "$program" assign --workers 16) >"$work/report" 2>/dev/null
        status=$?
        fits "16 workers in $kilobytes KB" "$(outcome)" '6 none none none -' \
            '0 whole whole whole report'
    done
}

# A user who may have no further thread.
no_threads() {
    begin
    as_other prlimit --nproc=1:1 "$program" assign --workers 16 >"$work/report"
    status=$?
    check '16 workers, no thread to be had' '0 whole whole whole report' "$(outcome)"
}

# A folder whose times.csv is what `assign` wrote there.
begin_skim() {
    begin
    cp "$whole/link_performance.csv" times.csv
}

# ends NAME WANTED OUTPUT WORDS: runs the program; its status, the lines of an output, or that it
# isn't a file, and the first line of Report.
ends() {
    told=$1
    wanted=$2
    output=$3
    shift 3
    run "$@"
    lines=none
    [ ! -f "$output" ] || lines=$(wc -l <"$output")
    check "$told" "$wanted" "$status $lines $(head -n 1 "$work/report")"
}

# refuses OUTPUT WORDS..: each of these lists of words, joined by commas, is refused.
refuses() {
    no_output=$1
    shift
    for words in "$@"; do
        # shellcheck disable=SC2046
        ends "refused words $words" "2 none $usage" "$no_output" $(echo "$words" | tr , ' ')
    done
}

# stand_ins SAID NAME OUTPUT WORDS..: what stands in place of a table NAME is a folder, a link to
# itself, and a table without end. What is said of each begins with SAID.
stand_ins() {
    said=$1
    table=$2
    shift 2
    rm -f "$table.csv"
    mkdir "$table.csv"
    ends "$said$table.csv is a folder" "4 none read fault in $table" "$@"
    rmdir "$table.csv"
    ln -s "$table.csv" "$table.csv"
    ends "$said$table.csv is itself" "4 none read fault in $table" "$@"
    rm -f "$table.csv"
    ln -s /dev/zero "$table.csv"
    ends "$said$table.csv without end" "7 none size: table $table limit 268435456" "$@"
    rm -f "$table.csv"
}

# What stands in place of a table of link times. Sound ones have 48 rows: 24 of each link.
times_tables() {
    begin_skim
    ends 'a times table of assign' '0 3 nodes 3' skim.csv skim
    rm -f times.csv skim.csv
    ends 'no times table' '4 none read fault in times' skim.csv skim
    stand_ins '' times skim.csv skim
    begin_skim
    : >times.csv
    ends 'times.csv of zero bytes' '3 none times line 1: E1 MissingColumn link_id' skim.csv skim
    sed 1q "$whole/link_performance.csv" >times.csv
    ends 'a header alone' '3 none times line 2: E13 Disagrees -' skim.csv skim
    printf '\377\376\0\1,\200\n' >times.csv
    ends 'bytes that are no text' '3 none times line 1: E2 BadRecord -' skim.csv skim
    sed '$d' "$whole/link_performance.csv" >times.csv
    ends 'a row is missing' '3 none times line 49: E13 Disagrees -' skim.csv skim
    sed '$p' "$whole/link_performance.csv" >times.csv
    ends 'a row too many' '3 none times line 50: E13 Disagrees link_id' skim.csv skim
    cp "$whole/agent.csv" times.csv
    ends 'an agent table' '3 none times line 1: E1 MissingColumn link_id' skim.csv skim
    begin_skim
    longer times.csv 268435456
    ends 'times.csv of 268435456 bytes' '0 3 nodes 3' skim.csv skim
    printf '\n' >>times.csv
    rm -f skim.csv
    ends 'times.csv of one byte more' '7 none size: table times limit 268435456' skim.csv skim
}

skims_and_counts() {
    begin_skim
    mkdir skim.csv counts.csv
    ends 'skim.csv is a folder' '5 none ' skim.csv skim
    ends 'counts.csv is a folder' '5 none ' counts.csv counts
    rmdir skim.csv counts.csv
    ln -s /dev/full skim.csv
    ends 'skim.csv is full' '5 none ' skim.csv skim
    rm -f skim.csv
    "$program" skim >/dev/full; check 'skim, a full standard output' '5 3' "$? $(wc -l <skim.csv)"
    rm -f skim.csv
    ends 'counts' '0 25 nodes 3' counts.csv counts
    mv counts.csv "$work/without"
    ends 'a link that is not there' '0 25 nodes 3' counts.csv counts --link 99
    cmp -s counts.csv "$work/without"; check 'the same counts as without a link' 0 $?
    ends 'a link in another spelling' '0 26 nodes 3' counts.csv counts --link=0020.0
    rm -f counts.csv
    refuses skim.csv counts,--link counts,--link= counts,--link=x counts,--link=-1 \
        counts,--watch,1 counts,--at,0 skim,--at skim,--at=0\; skim,--at,1200 skim,--plain \
        skim,--link=10 skim,--period,10 Skim count
    awk 'BEGIN { print "node_id,zone_id"; for (k = 1; k < 4098; k++) print k "," k }' >node.csv
    ends '4,097 zones' '7 none size: skim 16781312 limit 16777216' skim.csv skim
}

# link_windows NAME TEXT WANTED: a run where the second link has these windows.
link_windows() {
    begin
    printf 'link_id,from_node_id,to_node_id,length,free_speed,capacity_by_step\n' >link.csv
    { printf '10,1,2,1000,60,\n20,2,3,1000,60,'; cat; printf '\n'; } >>link.csv
    ends "$1" "$2" agent.csv assign
}

# Windows that are good, of wrong forms and past their limits.
windows() {
    range='3 none link line 3: E5 OutOfRange capacity_by_step'
    form='3 none link line 3: E4 NotNumber capacity_by_step'
    many='BEGIN { for (k = 0; k < count; k++) printf "%s%d:600", k ? ";" : "", k }'
    awk -v count=64 "$many" | link_windows '64 windows' '0 3001 nodes 3'
    awk -v count=65 "$many" | link_windows '65 windows' "$range"
    awk -v count=1000000 "$many" | link_windows '1,000,000 windows' "$range"
    { awk -v count=1000000 "$many"; printf ';'; } | link_windows 'and nothing behind them' "$form"
    { printf 0:; head -c 10000000 /dev/zero | tr '\0' 0; } | link_windows 'a rate of 10 MB' "$form"
    { printf '0:600;'; head -c 10000000 /dev/zero | tr '\0' 0; printf 7:0; } |
        link_windows 'a step of 10 MB, with leading zeros' '0 3001 nodes 3'
    { printf '0:600;'; head -c 10000000 /dev/zero | tr '\0' 9; printf :0; } |
        link_windows 'a step of 10,000,000 digits' "$range"
    printf '0:600;86400:0' | link_windows 'a window from step 86,400 on' '0 3001 nodes 3'
    printf '0:600;86401:0' | link_windows 'a window from step 86,401 on' "$range"
    printf '0:600;20:0\0' | link_windows 'a NUL behind windows' "$form"
    printf '"0:600;\n20:0"' | link_windows 'windows in two lines' "$form"
    printf '0:none' | link_windows 'a link without a limit' "$form"
    printf '"0:600;20:' | link_windows 'windows in a quote that never ends' \
        '3 none link line 3: E4 NotNumber capacity_by_step'
    begin
    printf 'node_id,ib_link_id,ob_link_id,capacity_by_step\n2,10,20,0:none;5:0;9:none\n' \
        >movement.csv
    ends 'a turn that is closed for some steps' '0 3001 nodes 3' agent.csv assign
    printf 'node_id,ib_link_id,ob_link_id,capacity_by_step\n2,10,20,0:None\n' >movement.csv
    rm -f agent.csv
    ends 'a turn with None' '3 none movement line 2: E4 NotNumber capacity_by_step' agent.csv assign
}

# Waves in and out of their range, over short and very long links, and in little memory.
waves() {
    begin
    refuses agent.csv assign,--wave,0 assign,--wave,101 assign,--wave=1.0 assign,--wave= \
        assign,--wave assign,--queue=newell,--wave,0 assign,--queue,Newell skim,--wave,20 \
        freeflow,--wave,20 demo,2,--wave,101
    for wave in 1 20 100; do
        begin
        run assign --wave $wave
        check "a wave of $wave with another queue" '0 whole whole whole report' "$(outcome)"
        ends "a wave of $wave" '0 3001 nodes 3' agent.csv assign --queue newell --wave $wave
    done
    begin
    printf 'link_id,from_node_id,to_node_id,length,free_speed\n10,1,2,1e9,1e9\n20,2,3,0,60\n' \
        >link.csv
    ends 'links of 1,000,000 km and of 0 m' '0 3001 nodes 3' agent.csv assign --queue newell \
        --wave 1 --step 1
    begin
    ring 2
    for kilobytes in 2000000 1000000 500000 200000 50000 5000; do
        in_memory $kilobytes --plain --queue newell --wave 1 --step 1
        fits "65,536 links, each with 360 steps of its wave, in $kilobytes KB" "$(outcome)" \
            '6 none none none -' '0 other other other nodes 65536'
    done
}

# start_rows COUNT LINKS: a start table with so many rows of such links.
start_rows() {
    awk -v count="$1" -v links="$2" 'BEGIN {
        print "agent_id,o_zone_id,d_zone_id,link_ids"
        for (k = 0; k < count; k++) print k ",1,3," links
    }' >start.csv
}

# same NAME WORDS: a run with a start table writes what one without does, but for a last column in
# its agent table that is 1 everywhere.
same() {
    ends "$1" '0 3001 nodes 3' agent.csv assign --start
    awk 'NR > 1 { print $0 ",1" } NR == 1 { print $0 ",route_iteration" }' "$whole/agent.csv" |
        cmp -s - agent.csv
    check "$1, the same routes" 0 $?
    rm -f agent.csv
}

# What stands in place of a start table. The sound one has 3,000 rows.
start_tables() {
    begin
    ends 'no start table' '4 none read fault in start' agent.csv assign --start
    stand_ins '' start agent.csv assign --start
    : >start.csv
    ends 'start.csv of zero bytes' '3 none start line 1: E1 MissingColumn agent_id' agent.csv \
        assign --start
    printf '\377\376\0\1,\200\n' >start.csv
    ends 'bytes that are no text' '3 none start line 1: E2 BadRecord -' agent.csv assign --start
    cp "$whole/link_performance.csv" start.csv
    ends 'a table of link times' '3 none start line 1: E1 MissingColumn agent_id' agent.csv \
        assign --start
    start_rows 0 ''
    same 'a header alone'
    start_rows 3000 ''
    same 'rows without links'
    start_rows 3000 10\;99
    same 'rows with a link that is not there'
    start_rows 3000 20\;10
    same 'rows with a wrong turn'
    cp "$whole/agent.csv" start.csv
    ends 'the agent table of a run' '0 3001 nodes 3' agent.csv assign --start
    mv agent.csv start.csv
    ends 'the agent table of a run from a start table' '0 3001 nodes 3' agent.csv assign --start
    check 'its routes are those of the start table' 3000 "$(grep -c ',0$' agent.csv)"
    sed -i '$p' start.csv
    rm -f agent.csv
    ends 'a row that comes twice' '3 none start line 3002: E6 Duplicate agent_id' agent.csv \
        assign --start
    start_rows 2000000 10\;20
    ends '2,000,000 rows' '0 3001 nodes 3' agent.csv assign --start
    rm -f agent.csv
    echo '2000000,1,3,' >>start.csv
    ends '2,000,001 rows' '3 none start line 2000002: E12 TooMany -' agent.csv assign --start
    start_rows 1999999 10\;20
    echo '5,1,3,' >>start.csv
    ends 'the last of 2,000,000 rows comes twice' \
        '3 none start line 2000001: E6 Duplicate agent_id' agent.csv assign --start
    start_rows 1999999 10\;20
    echo '1999999,1,3,10;' >>start.csv
    ends 'the last of 2,000,000 rows has a bad list' \
        '3 none start line 2000001: E4 NotNumber link_ids' agent.csv assign --start
    { echo agent_id,o_zone_id,d_zone_id,link_ids; printf 0,1,3,10
        awk 'BEGIN { for (k = 0; k < 20000000; k++) printf ";20" }'; echo; } >start.csv
    same 'a list of 20,000,001 links'
    cp "$whole/agent.csv" start.csv
    longer start.csv 268435456
    ends 'start.csv of 268435456 bytes' '0 3001 nodes 3' agent.csv assign --start
    printf '\n' >>start.csv
    rm -f agent.csv
    ends 'start.csv of one byte more' '7 none size: table start limit 268435456' agent.csv \
        assign --start
    cp "$whole/agent.csv" start.csv
    refuses agent.csv assign,--start= assign,--start=1 assign,--start,1 assign,--start,--start \
        assign,--starts demo,2,--start counts,--start skim,--start freeflow,--start
}

# Sweeps: outputs that can't be written, words, and limits. A sweep of two scales over the 3,000
# vehicles has 2 lines of its own, 2 agent tables of 3,001 and 6,001 lines, 2 tables of 49 lines,
# 2 of 2 and 2 reports of 12.
sweeps() {
    begin
    ends 'a sweep' '0 9130 scenarios 2' sweep.txt sweep --scales '1;2'
    cat "$whole/agent.csv" "$whole/link_performance.csv" "$whole/gap.csv" "$whole/report" \
        >"$work/alone"
    sed -n '2,3065p' sweep.txt | cmp -s - "$work/alone"; check 'its first scenario alone' 0 $?
    mv sweep.txt "$work/swept"
    mkdir sweep.txt
    ends 'sweep.txt is a folder' '5 none ' sweep.txt sweep --scales '1;2'
    rmdir sweep.txt
    ln -s /dev/full sweep.txt
    ends 'sweep.txt is full' '5 none ' sweep.txt sweep --scales '1;2'
    rm -f sweep.txt
    "$program" sweep --scales '1;2' >/dev/full
    check 'sweep, a full standard output' '5 9130' "$? $(wc -l <sweep.txt)"
    cmp -s sweep.txt "$work/swept"; check 'sweep.txt is whole' 0 $?
    rm -f sweep.txt
    as_other prlimit --nproc=1:1 "$program" sweep --scales '1;2' --workers 16 >"$work/report"
    check 'sweep, no thread to be had' '0 scenarios 2' "$? $(cat "$work/report")"
    cmp -s sweep.txt "$work/swept"; check 'the same sweep' 0 $?
    for scales in '1' '0001.0' '1e0' '+1' '1.0009' '0.1e1'; do
        rm -f sweep.txt
        ends "the scale $scales" '0 3065 scenarios 1' sweep.txt sweep --scales "$scales"
        check "the scale $scales is 1000" 'scenario 0 scale 1000' "$(head -n 1 sweep.txt)"
    done
    ends 'the least scale and the greatest' '0 30133 scenarios 2' sweep.txt sweep \
        --scales=0.001\;10
    ends '16 scales' '0 1088 scenarios 16' sweep.txt sweep --scales "0.001$(printf ';0.001%.0s' \
        1 2 3 4 5 6 7 8 9 10 11 12 13 14 15)"
    rm -f sweep.txt
    for scales in '' ' ' 0 0.0009 10.001 11 -1 -0 '1;' ';1' '1;;2' '1; 2' ' 1' '1 ' '1,2' x 1e2 \
        1e5 "1$(printf ';1%.0s' 1 2 3 4 5 6 7 8 9 10 11 12 13 14 15 16)" \
        "$(head -c 65 /dev/zero | tr '\0' 0)1" "1$(head -c 100000 /dev/zero | tr '\0' \;)"; do
        ends "refused scales $(echo "$scales" | head -c 20)" "2 none $usage" sweep.txt sweep \
            "--scales=$scales"
    done
    refuses sweep.txt sweep sweep,--scales sweep,--scales,-1 sweep,--scale,1 \
        sweep,--scales,1,--plain sweep,--scales,1,--watch,1 sweep,--scales,1,--start \
        sweep,--scales,1,--at,0 sweep,--scales,1,--link,10 sweep,--scales,1,--scales,1 \
        sweep,--scales,1,--workers,17 sweep,1 Sweep,--scales,1 sweeps,--scales,1 \
        assign,--scales,1 demo,2,--scales,1 counts,--scales,1 skim,--scales,1 \
        freeflow,--scales,1 audit,--scales,1
    begin 1000001
    ends 'too many vehicles at the second scale' \
        '7 none size: demand line 2 vehicles 2000002 limit 2000000' sweep.txt sweep --scales '0.5;2'
    begin 1000000000
    ends 'a volume at its limit, ten times' \
        '7 none size: demand line 2 vehicles 1000000000 limit 2000000' sweep.txt sweep --scales 10
    begin
    rm -f demand.csv
    ends 'sweep, no demand table' '4 none read fault in demand' sweep.txt sweep --scales 1
    begin
    ring 2
    ends '65,536 links times 257 steps' '7 none size: links 65536 steps 257 limit 16777216' \
        sweep.txt sweep --scales 1 --horizon 257
}

# Links times the horizon at the limit of a sweep, four at once, in ever less memory.
sweeps_in_little_memory() {
    for kilobytes in 8000000 1000000 300000 100000 30000 10000 5000; do
        begin
        ring 2
        (ulimit -v $kilobytes && exec "$program" sweep --scales '1;2;3;4' --horizon 256 \
            --bucket 256) >"$work/report" 2>"$work/watch"
        status=$?
        [ -f sweep.txt ] && lines=$(wc -l <sweep.txt) || lines=none
        fits "four times 65,536 links times 256 steps in $kilobytes KB" \
            "$status $lines $(cat "$work/report")" '6 none ' '0 262312 scenarios 4'
    done
}

# A folder with the agent table and the link times that `assign` wrote there.
begin_audit() {
    begin
    cp "$whole/agent.csv" start.csv
    cp "$whole/link_performance.csv" times.csv
}

# changed NAME EXPRESSION TABLE WANTED: an audit where sed changed a table.
changed() {
    begin_audit
    sed -i "$2" "$3.csv"
    ends "$1" "$4" audit.txt audit
}

# Audits of tables that somebody changed, and words.
audits() {
    begin_audit
    ends 'an audit' '0 none audit ok' audit.txt audit
    check 'its report' 'audit ok vehicles 3000 links 2 ' "$(tr '\n' ' ' <"$work/report")"
    check 'no file is made' 'demand.csv link.csv node.csv start.csv times.csv ' \
        "$(ls | tr '\n' ' ')"
    "$program" audit >/dev/full; check 'audit, a full standard output' 5 $?
    differs='8 none audit: start line'
    changed 'another agent' '3s/^1,/2,/' start "$differs 3 agent_id"
    changed 'another origin' '3s/^1,1,/1,7,/' start "$differs 3 o_zone_id"
    changed 'another destination' '3s/^1,1,3,/1,1,1,/' start "$differs 3 d_zone_id"
    changed 'another departure' '3s/^1,1,3,0,/1,1,3,1,/' start "$differs 3 departure_step"
    changed 'links the other way' '3s/10;20/20;10/' start "$differs 3 link_ids"
    changed 'a link that is not there' '3s/10;20/10;99/' start "$differs 3 link_ids"
    changed 'a walk that ends too early' '3s/10;20/10/' start "$differs 3 link_ids"
    changed 'no links' '3s/10;20//' start "$differs 3 arrival_step"
    changed 'another arrival' '3s/^1,1,3,0,21,/1,1,3,0,22,/' start "$differs 3 arrival_step"
    changed 'no arrival' '3s/^1,1,3,0,21,/1,1,3,0,,/' start "$differs 3 arrival_step"
    changed 'another status' '3s/arrived/running/' start "$differs 3 status"
    changed 'no status' '3s/arrived//' start "$differs 3 status"
    changed 'a status in capitals' '3s/arrived/Arrived/' start "$differs 3 status"
    changed 'another entry' '3s/1;11$/1;12/' start "$differs 3 entry_steps"
    changed 'an entry too few' '3s/1;11$/1/' start "$differs 3 entry_steps"
    changed 'a row is missing' 3d start "$differs 3 agent_id"
    changed 'the last row is missing' '$d' start "$differs 3001 -"
    changed 'a row too many' '$p' start "$differs 3002 agent_id"
    changed 'a header alone' '2,$d' start "$differs 2 -"
    changed 'other entries' '2s/,50,50,/,50,51,/' times '8 none audit: times line 2 entered'
    changed 'another time' '2s/,\([0-9]*\),10$/,1\1,10/' times \
        '8 none audit: times line 2 travel_steps'
    changed 'other free-flow steps' '2s/,10$/,11/' times \
        '3 none times line 2: E13 Disagrees free_steps'
    changed 'blanks and leading zeros' 's/,arrived,10;20,/,\tarrived ,010;20.0, /' start \
        '0 none audit ok'
    changed 'a column that is passed over' 's/$/,7/' start '0 none audit ok'
    refuses audit.txt audit,--workers,2 audit,--iterations,2 audit,--plain audit,--watch,1 \
        audit,--start audit,--at,0 audit,--link,10 audit,1 audit,--period,0 \
        audit,--horizon,10,--period,11 Audit audits
    begin_audit
    sed -i '3s/arrived/running/' start.csv
    "$program" audit >/dev/full; check 'it differs, a full standard output' 8 $?
    ends 'another horizon' '3 none times line 25: E13 Disagrees to_step' audit.txt audit \
        --horizon 1199
    cp "$whole/agent.csv" start.csv
    ends 'another period' '8 none audit: start line 302 departure_step' audit.txt audit --period 599
    echo 1,3,1 >>demand.csv
    ends 'a vehicle more' '8 none audit: start line 1507 departure_step' audit.txt audit
    echo 1,3,2000000 >>demand.csv
    ends 'audit, too many vehicles' '7 none size: demand line 4 vehicles 2003001 limit 2000000' \
        audit.txt audit
}

# What stands in place of the tables of an audit.
audited_tables() {
    for name in start times; do
        begin_audit
        rm -f $name.csv
        ends "audit, no $name.csv" "4 none read fault in $name" audit.txt audit
        stand_ins 'audit, ' $name audit.txt audit
        printf '\377\376\0\1,\200\n' >$name.csv
        ends "audit, $name.csv is no text" "3 none $name line 1: E2 BadRecord -" audit.txt audit
    done
    begin_audit
    : >start.csv
    ends 'start.csv of zero bytes' '3 none start line 1: E1 MissingColumn agent_id' audit.txt audit
    start_rows 3000 '10;20'
    ends 'a start table of fewer columns' '3 none start line 1: E1 MissingColumn departure_step' \
        audit.txt audit
    begin_audit
    sed -i '3s/1;11$/1;x/' start.csv
    ends 'an entry that is no number' '3 none start line 3: E4 NotNumber entry_steps' audit.txt \
        audit
    begin_audit
    sed -i '3s/^1,1,3,0,21,/1,1,3,0,-1,/' start.csv
    ends 'an arrival below 0' '3 none start line 3: E5 OutOfRange arrival_step' audit.txt audit
    begin_audit
    longer start.csv 268435456
    ends 'start.csv of 268435456 bytes' '0 none audit ok' audit.txt audit
    printf '\n' >>start.csv
    ends 'start.csv of one byte more' '7 none size: table start limit 268435456' audit.txt audit
    begin_audit
    awk 'BEGIN {
        print "agent_id,o_zone_id,d_zone_id,departure_step,arrival_step,status,link_ids,entry_steps"
        for (k = 0; k < 2000000; k++) print k ",1,3,0,,,,"
    }' >start.csv
    ends '2,000,000 rows' '8 none audit: start line 7 departure_step' audit.txt audit
    echo '0,1,3,0,,,,' >>start.csv
    ends '2,000,001 rows' '3 none start line 2000002: E12 TooMany -' audit.txt audit
    begin_audit
    { head -n 1 "$whole/agent.csv"; printf 0,1,3,0,21,arrived,10
        awk 'BEGIN { for (k = 0; k < 20000000; k++) printf ";20" }'; echo ',0;10'; } >start.csv
    ends 'a list of 20,000,001 links' '8 none audit: start line 2 link_ids' audit.txt audit
    { head -n 1 "$whole/agent.csv"; printf '0,1,3,0,,unrouted,,0'
        awk 'BEGIN { for (k = 0; k < 20000000; k++) printf ";20" }'; echo; } >start.csv
    ends 'a list of 20,000,001 entries' '8 none audit: start line 3 -' audit.txt audit
    for kilobytes in 100000 20000 10000 8000 6000 5000 4500 4000; do
        begin_audit
        (ulimit -v $kilobytes && exec "$program" audit) >"$work/report" 2>"$work/watch"
        fits "an audit in $kilobytes KB" "$? $(head -n 1 "$work/report")" '6 ' '0 audit ok'
    done
}

# Waits for so many seconds, or until the run has begun with this output.
pause() {
    case $1 in
        *.csv) while kill -0 $runs 2>/dev/null && cmp -s "$work/earlier" "$1"; do :; done ;;
        *) sleep "$1" ;;
    esac
}

# Kills a run at some moment; what is in the folder then is from an earlier run, or a first part.
killed() {
    begin 400000
    echo earlier >"$work/earlier"
    for name in agent.csv link_performance.csv gap.csv; do cp "$work/earlier" "$name"; done
    "$program" assign --plain >"$work/report" 2>"$work/watch" &
    runs=$!
    pause "$1"
    kill -9 $runs 2>/dev/null
    wait $runs 2>/dev/null
    status=$?
    got=$(outcome)
    case ${got#* } in
        'earlier earlier earlier -' | 'empty earlier earlier -' | 'part earlier earlier -' | \
            'whole earlier earlier -' | 'whole empty earlier -' | 'whole whole earlier -' | \
            'whole whole empty -' | 'whole whole whole -' | 'whole whole whole report') what=ok ;;
        *) what=$got ;;
    esac
    check "killed at $1 ($got)" 'ok agent.csv demand.csv gap.csv link.csv '\
'link_performance.csv node.csv ' "$what $(ls | tr '\n' ' ')"
}

# Kills a run at each output, and at moments that are spread over the time that it took with ample
# room, and after it.
kills() {
    whole=$work/long_whole
    before=$(date +%s.%N)
    keep_whole 400000 --plain
    after=$(date +%s.%N)
    for name in agent.csv agent.csv link_performance.csv gap.csv; do killed $name; done
    for part in 1 4 7 9 10 11 12 13 14 15 16 17 18 20 23; do
        killed "$(awk "BEGIN { printf \"%.3f\", ($after - $before) * $part / 17 }")"
    done
    whole=$work/whole
}

keep_whole 3000
for group in ${*:-$groups}; do $group; done
echo "$cases cases, $failures failed"
exit "$((failures > 0))"
