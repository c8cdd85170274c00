#!/bin/sh
# memory.sh PROGRAM: runs a built program again and again, and lets the system refuse it one request
# for memory: in the first run the first request, in the second run the second, and so on until a
# run meets no refusal. After the first 3,000 requests of a case it takes each 50th. Each run must
# end within 20 seconds with status 0, 6, or 5 where a put needed the memory, and with outputs that
# are whole, a first part, or as they were, as docs/FORMATS.md says of that status. Prints for each
# case how many requests there are and how many runs ended with each status; ends with 0 where all
# held. It needs a C compiler, a program that takes its memory from the C library of GNU, and some
# minutes.
checks=$(dirname "$(readlink -f "$0")")
. "$checks/begin.sh"
work=$folder
every=3000
stride=50

# What stands between the program and the C library. It counts the requests from the start of the
# program on, and refuses the one whose number REFUSED tells. Where the program ends it writes to
# the file COUNTED how many there were.
cat >"$work/refuse.c" <<'C'
#include <errno.h>
#include <fcntl.h>
#include <stdatomic.h>
#include <stdio.h>
#include <stdlib.h>
#include <sys/syscall.h>
#include <unistd.h>

void *__libc_malloc(size_t size);
void *__libc_calloc(size_t count, size_t size);
void *__libc_realloc(void *block, size_t size);
void *__libc_memalign(size_t align, size_t size);

static int counting;
static atomic_ulong requests;
static unsigned long refused;

__attribute__((constructor)) static void begin(void) {
    const char *number = getenv("REFUSED");
    refused = number ? strtoul(number, NULL, 10) : 0;
    counting = 1;
}

void _exit(int status) {
    char text[32];
    int file = open(getenv("COUNTED"), O_WRONLY | O_CREAT | O_TRUNC, 0600);
    int length = snprintf(text, sizeof text, "%lu\n", (unsigned long)requests);
    if (write(file, text, length) != length) status = 99;
    for (;;) syscall(SYS_exit_group, status);
}

static int is_refused(void) {
    if (!counting || atomic_fetch_add(&requests, 1) + 1 != refused) return 0;
    errno = ENOMEM;
    return 1;
}

void *malloc(size_t size) { return is_refused() ? NULL : __libc_malloc(size); }

void *calloc(size_t count, size_t size) {
    return is_refused() ? NULL : __libc_calloc(count, size);
}

void *realloc(void *block, size_t size) {
    return is_refused() ? NULL : __libc_realloc(block, size);
}

void *memalign(size_t align, size_t size) {
    return is_refused() ? NULL : __libc_memalign(align, size);
}

void *aligned_alloc(size_t align, size_t size) { return memalign(align, size); }

int posix_memalign(void **block, size_t align, size_t size) {
    void *made = memalign(align, size);
    if (!made) return ENOMEM;
    *block = made;
    return 0;
}
C
cc -O -fno-builtin -shared -fPIC -o "$work/refuse.so" "$work/refuse.c" || exit 2

# Two links in a line, and three vehicles.
two_links() {
    "$checks/two_links.sh" 3
}

# A narrow link and a way round it, and four vehicles.
a_way_round() {
    two_links
    sed -i 1q link.csv demand.csv
    printf '20,1,2,1000,1,60,3600\n30,2,3,1000,1,60,600\n40,1,3,2100,1,60,3600\n' >>link.csv
    printf '1,3,4\n' >>demand.csv
}

# Two links in a line, and what an assignment of 60 steps tells of them.
link_times() {
    two_links
    printf '%s\n' link_id,from_step,to_step,entered,travel_steps,free_steps \
        10,0,50,3,10,10 10,50,60,0,10,10 20,0,50,3,10,10 20,50,60,0,10,10 >times.csv
}

# The same with the agent table of that assignment.
results() {
    link_times
    columns=agent_id,o_zone_id,d_zone_id,departure_step,arrival_step,status,link_ids,entry_steps
    printf '%s\n' $columns '0,1,3,5,25,arrived,10;20,5;15' '1,1,3,15,35,arrived,10;20,15;25' \
        '2,1,3,25,45,arrived,10;20,25;35' >start.csv
}

# run NUMBER WORDS: a run whose request of this number is refused, none where it is 0, over outputs
# of an earlier run.
run() {
    cp "$work"/earlier/*.* .
    refused=$1
    shift
    timeout 20 env LD_PRELOAD="$work/refuse.so" REFUSED="$refused" COUNTED="$work/counted" \
        "$program" "$@" >report 2>"$work/watch"
    status=$?
}

# A letter for each output: w where it is whole, u where it is as it was, p where it is a first part
# and x where it is something else.
letters() {
    for name in $outputs; do
        if cmp -s "$name" "$work/whole/$name"; then printf w
        elif cmp -s "$name" "$work/earlier/$name"; then printf u
        elif cmp -s -n "$(wc -c <"$name")" "$name" "$work/whole/$name"; then printf p
        else printf x; fi
    done
}

# Looks at a run whose request of this number was refused. A put that failed leaves first outputs
# whole and a first part of the next.
look() {
    runs=$((runs + 1))
    got="$status $(letters)"
    case $status in
        0) done_runs=$((done_runs + 1)) ;;
        5) put_runs=$((put_runs + 1)) ;;
        6) memory_runs=$((memory_runs + 1)) ;;
    esac
    echo "$got" | grep -Eqx '0 w+|5 w*[pu]u*|6 u+' ||
        fails "$name, request $1 refused: status and outputs $got"
}

# Runs without a refusal, and keeps what is written and how many requests there are.
keep_whole() {
    run 0 "$@"
    [ $status -eq 0 ] || { echo "$name: a run with ample memory ends with $status"; exit 2; }
    cp $outputs "$work/whole"
    ample=$(cat "$work/counted" 2>/dev/null)
    [ "${ample:-0}" -gt 0 ] || { echo 'no request for memory was seen'; exit 2; }
}

# case_of NAME TABLES OUTPUTS WORDS: all runs of a case.
case_of() {
    name=$1
    outputs=$3
    rm -rf "$work/case" "$work/whole" "$work/earlier"
    mkdir "$work/case" "$work/whole" "$work/earlier"
    for output in agent.csv link_performance.csv origin_wait.csv gap.csv skim.csv counts.csv \
        sweep.txt; do
        echo earlier >"$work/earlier/$output"
    done
    : >"$work/earlier/report"
    cd "$work/case" || exit 2
    $2
    shift 3
    keep_whole "$@"
    runs=0 done_runs=0 put_runs=0 memory_runs=0 number=1
    while :; do
        rm -f "$work/counted"
        run $number "$@"
        requests=$(cat "$work/counted" 2>/dev/null || echo "$ample")
        [ "$requests" -ge $number ] || break
        look $number
        number=$((number + (number < every ? 1 : stride)))
    done
    echo "$name: $requests requests, $runs of them refused: status 6 in $memory_runs runs," \
        "5 in $put_runs, 0 in $done_runs"
}

files='agent.csv link_performance.csv gap.csv report'
with_waits='agent.csv link_performance.csv origin_wait.csv gap.csv report'
for loader in --plain '--workers 1' '--workers 4'; do
    case_of "two links in a line, $loader" two_links "$files" \
        assign --period 30 --horizon 60 $loader
    case_of "two iterations, $loader" a_way_round "$files" \
        assign --period 1 --horizon 60 --iterations 2 $loader
    case_of "two iterations by trips, $loader" a_way_round "$with_waits" \
        assign --period 1 --horizon 60 --iterations 2 --costs trips $loader
    case_of "a demonstration, $loader" : report demo 2 --period 1 --horizon 1 $loader
    case_of "counts, $loader" a_way_round 'counts.csv report' \
        counts --period 1 --horizon 60 --link 30 $loader
done
case_of 'a skim' link_times 'skim.csv report' skim --horizon 60 --at '0;55'
for workers in 1 4; do
    case_of "a sweep, $workers workers" a_way_round 'sweep.txt report' sweep --period 1 \
        --horizon 60 --iterations 2 --scales '1;0.5;2' --workers $workers
done
case_of 'a sweep by trips' a_way_round 'sweep.txt report' sweep --period 1 --horizon 60 \
    --iterations 2 --scales '1;2' --costs trips
case_of 'an audit' results report audit --period 30 --horizon 60
end 'all is as it should be'
