#!/bin/sh
# resources.sh PROGRAM: runs a built program where memory, stacks and the sizes of files are bounded
# by `ulimit`. As docs/FORMATS.md says, a run in little memory ends with 0 and all of its outputs,
# with 6 and none, or with 5 where a put lacked memory, and never by a signal. Each command is run
# with bounds that are a page apart. Some cases run the command `dta`, made here of command/run.sh
# and the program. script.sh tries its statuses 5 and 9: past the limit of file sizes, beside
# another run of the folder, and where two names are one file. Prints each case that isn't as
# wanted, and how many are; ends with 0 where all are. It takes some minutes.
# shellcheck disable=SC1091,SC2016,SC2046,SC2086,SC2154,SC2317,SC3045
checks=$(dirname "$(readlink -f "$0")")
. "$checks/cases.sh"
top=$(dirname "$checks")
commands='freeflow assign demo skim counts sweep audit'
page=4
start=
unset MALLOC_ARENA_MAX
ulimit -c 0

# ---- a run within bounds

# Whether there is an output.
is_put() {
    for output in $outputs; do [ ! -e "$output" ] || return 0; done
    return 1
}

# What a run put: its outputs in their order, and then Report.
what_is_put() {
    cat $outputs report 2>/dev/null
}

# bounded LIMIT WORDS..: runs the program under a limit, such as `-v 3000`, by what `start` says.
# Sets `status`.
bounded() {
    limit=$1
    shift
    ! is_put || rm -f $outputs
    { (ulimit $limit && exec $start "$program" "$@") >report; status=$?; } 2>said
}

# Whether the run put the first part of what it puts without bounds.
is_first_part() {
    what_is_put >part
    cmp -s -n "$(wc -c <part)" part "$folder/whole"
}

# Whether a run that has too little memory, or enough, ended as it should.
is_right() {
    case $status in
        0) what_is_put | cmp -s - "$folder/whole" ;;
        5) is_first_part ;;
        6) [ ! -s report ] && ! is_put ;;
        126 | 127) [ "${limit#-v }" -lt $((begins + 4 * page)) ] ;;
        *) false ;;
    esac
}

is_done() {
    [ "$status" -eq 0 ] && is_right
}

# is_case CHECK LIMIT WORDS..: a run under a limit, of which the check is true.
is_case() {
    check=$1
    shift
    bounded "$@"
    cases=$((cases + 1))
    $check || fails "dta $* over $tables: status $status"
}

# keep_whole WORDS..: keeps what a run without bounds puts.
keep_whole() {
    cases=$((cases + 1))
    rm -f $outputs
    "$program" "$@" >report 2>said || fails "dta $* over $tables without bounds: status $?"
    what_is_put >"$folder/whole"
}

# ---- tables and words

# Two links in a line. Each command has 60 steps.
two_links() {
    begin_case
    tables='two links' side=2 span=60 period=30
}

# many_nodes COUNT SIDE: so many nodes and one link, from the first to the second, and what an
# assignment of one step tells of them. A demonstration has this side.
many_nodes() {
    begin_case
    tables="$1 nodes" side=$2 span=1 period=1
    rm movement.csv
    awk -v count="$1" 'BEGIN {
        print "node_id,zone_id"
        for (k = 0; k < count; k++) print k "," (k < 2 ? k + 1 : "")
    }' >node.csv
    printf '%s\n' link_id,from_node_id,to_node_id,length 10,0,1,1 >link.csv
    printf '%s\n' o_zone_id,d_zone_id,volume 1,2,3 >demand.csv
    "$program" assign --period 1 --horizon 1 >report || fails "no tables of $1 nodes"
    mv agent.csv start.csv
    mv link_performance.csv times.csv
}

# words_of COMMAND: the words of its run.
words_of() {
    loading="--period $period --horizon $span"
    case $1 in
        freeflow) echo freeflow ;;
        skim) echo skim --horizon "$span" ;;
        demo) echo demo "$side" "$loading" ;;
        counts) echo counts "$loading" --link 10 ;;
        sweep) echo sweep "$loading" --scales '1;2' ;;
        *) echo "$1" "$loading" ;;
    esac
}

# ---- memory

# Sets `begins` to the least bound above all with which the system can't load the program.
find_begin() {
    begins=
    for bound in $(seq 400 $page 6000); do
        bounded "-v $bound"
        case $status in 126 | 127) begins=$((bound + page)) ;; esac
    done
    [ -n "$begins" ] || { echo 'resources.sh: the system loads the program in 400 KB' >&2; exit 2; }
    echo "the program begins in $begins KB"
}

# find_least WORDS..: sets `least` to a bound under which a run is done, and isn't in a page less.
find_least() {
    low=$begins
    high=$low
    status=6
    while [ "$status" -ne 0 ] && [ "$high" -lt 16000000 ]; do
        low=$high
        high=$((2 * high))
        bounded "-v $high" "$@"
    done
    while [ $((high - low)) -gt $page ]; do
        middle=$(((low + high) / 2 / page * page))
        bounded "-v $middle" "$@"
        if [ "$status" -eq 0 ]; then high=$middle; else low=$middle; fi
    done
    least=$high
}

# pages FIRST LAST WORDS..: runs under the bounds between two, a page apart, or some 1000 of them.
pages() {
    bound=$1
    last=$2
    stride=$(((last - bound) / 1000 / page * page + page))
    shift 2
    while [ "$bound" -le "$last" ]; do
        is_case is_right "-v $bound" "$@"
        bound=$((bound + stride))
    done
}

# Each command in ever more memory, from where the program begins to where it is enough.
all_pages() {
    for command in $commands; do
        set -- $(words_of "$command")
        keep_whole "$@"
        find_least "$@"
        echo "$command over $tables is done in $least KB"
        pages "$begins" $((least + 25 * page)) "$@"
    done
}

# Each command around the bound with which freeflow is done, where nearly all memory is that of the
# nodes, and around its own.
pages_around() {
    find_least freeflow
    read_in=$least
    for command in $commands; do
        set -- $(words_of "$command")
        keep_whole "$@"
        [ "$command" = demo ] ||
            pages $((read_in - 25 * page)) $((read_in + 20 * page)) "$@"
        find_least "$@"
        echo "$command over $tables is done in $least KB"
        [ "$command" = freeflow ] ||
            pages $((least - 20 * page)) $((least + 10 * page)) "$@"
    done
}

# Sixteen workers, whose threads each take addresses.
threads() {
    set -- assign --period 30 --horizon 60 --workers 16
    keep_whole "$@"
    for bound in $(seq 4000 1000 160000); do is_case is_right "-v $bound" "$@"; done
}

# ---- stacks and files

# Each command with a small stack, which is also that of each thread. Beside 128 KB it has to hold
# the environment.
stacks() {
    for command in $commands; do
        set -- $(words_of "$command")
        keep_whole "$@"
        for size in 128 132 136 144 160 192 256 512 1024 8192 unlimited; do
            (ulimit -s $size) 2>/dev/null || continue
            is_case is_done "-s $size" "$@"
        done
        start="env LONG=$(head -c 120000 /dev/zero | tr '\0' x)"
        for size in 248 252 256 512 8192; do is_case is_done "-s $size" "$@"; done
        start=
    done
}

# Whether the signal of a file that is too large ended the run, which had put a part.
is_cut_off() {
    [ "$status" -gt 128 ] && [ "$(kill -l "$status")" = XFSZ ] && is_put && is_first_part
}

# Files past their limit, where nobody ignores the signal.
files() {
    sed -i 's/,3$/,900/' demand.csv
    tables='two links and 900 vehicles'
    start='env --default-signal=XFSZ'
    for command in assign sweep; do
        set -- $(words_of "$command")
        keep_whole "$@"
        for blocks in 1 8; do is_case is_cut_off "-f $blocks" "$@"; done
    done
    start=
}

# ---- the command `dta`

# make_command PROGRAM: makes the command, which runs this program.
make_command() {
    cat >"$folder/dta" <<DTA
#!/bin/sh
program='$1' share='$top' docs='$top/docs'
. "\$share/command/run.sh"
run_command "\$@"
DTA
    chmod +x "$folder/dta"
}

# shares WANTED TEXT [COMMAND..]: what the program finds as MALLOC_ARENA_MAX.
shares() {
    wanted=$1
    name=$2
    shift 2
    cases=$((cases + 1))
    got=$("$@" "$folder/dta" demo 2 2>/dev/null)
    [ "$got" = "$wanted" ] || fails "$name: MALLOC_ARENA_MAX is '$got', wanted '$wanted'"
}

# Threads share one region of memory where it is bounded, unless somebody has said otherwise.
shared_memory() {
    printf '%s\n' '#!/bin/sh' 'echo "${MALLOC_ARENA_MAX-}"' >"$folder/tells"
    chmod +x "$folder/tells"
    make_command "$folder/tells"
    [ "$(ulimit -v)" != unlimited ] || shares '' 'no bound'
    shares 1 'a bound' prlimit --as=1000000000
    shares 3 'a bound and 3 regions' env MALLOC_ARENA_MAX=3 prlimit --as=1000000000
    make_command "$program"
}

# in_order: whether a run ended with 6, or with 0 as each one in less memory since the first did.
in_order() {
    case $status in
        0) enough=${enough:-$bound}; what_is_put | cmp -s - "$folder/whole" ;;
        6) [ -z "$enough" ] && [ ! -s report ] ;;
        *) false ;;
    esac
}

# ever_more FIRST STRIDE LAST WORDS..: what is done in some memory is done in more, by the command,
# whose program has threads. Bounds are in KB.
ever_more() {
    bounds=$(seq "$1" "$2" "$3")
    shift 3
    keep_whole "$@"
    enough=
    for bound in $bounds; do is_case in_order "-v $bound" "$@"; done
    echo "dta $* over $tables is done in ${enough:-more than $bound} KB"
    [ -n "$enough" ] || fails "dta $* over $tables lacks memory"
}

# Networks from 4 MB on, 1 MB apart: the stacks of 16 threads may take more than what is left.
more_is_enough() {
    tables='no table'
    ever_more 100000 10000 400000 demo 40 --horizon 3000 --period 200 --iterations 2
    loading='--horizon 300 --period 300'
    for tables in sioux_falls roundabout; do
        rm -f ./*.csv
        cp "$top/examples/$tables"/*.csv .
        awk -F , -v OFS=, '
            NR == 1 { for (at = 1; at <= NF && $at != "volume"; at++); }
            NR > 1 { $at /= 50 }
            { print }' "$top/examples/$tables/demand.csv" >demand.csv
        ever_more 4096 1024 45000 assign $loading
        ever_more 4096 1024 45000 assign $loading --iterations 2 --workers 16
        ever_more 4096 1024 45000 assign $loading --plain --workers=16
        ever_more 4096 1024 45000 counts --workers 16 $loading
        ever_more 4096 1024 45000 sweep $loading --scales '1;1.5;1;1'
    done
}

# A long environment leaves no room in a small stack, and too many words can't be passed.
long_environment() {
    tables='sioux_falls and a long environment'
    start="env LONG=$(head -c 120000 /dev/zero | tr '\0' x) SECOND=$(head -c 120000 /dev/zero |
        tr '\0' x)"
    ever_more 16384 16384 65536 assign $loading --workers 16
    start=
}

find_begin
two_links
all_pages
threads
stacks
files
many_nodes 5000 20
all_pages
stacks
many_nodes 300000 60
pages_around
begin_case
shared_memory
make_command "$program"
program=$folder/dta
more_is_enough
long_environment
end_cases
