#!/bin/sh
# crates.sh [NAME..]: measures crates by the small programs of bench/programs. Names are the
# functions that `names` lists; all of them are run where none is said. BUILT, in the environment,
# is a folder in which build.sh has built the programs; without it they are built first, in a folder
# that is gone at the end, which takes as long as `./dta` takes to build. Where there is a rustc,
# plain Rust programs that do the same (bench/plain) are measured too.
#
# Each program runs three times. A row has the middle one of the three in seconds by the clock and
# in seconds of processors (with those of the kernel), and the largest peak of memory in MB; or what
# is said above it. Ends with 1 where a proved program and a plain one come to something else. Where
# other work is done meanwhile the seconds say little.
names='fills lines loading floor release tables texts iteration'
bench=$(dirname "$(readlink -f "$0")")
for name in "$@"; do
    case " $names " in *" $name "*) ;; *) echo "crates.sh: names are $names" >&2; exit 2 ;; esac
done
built=${BUILT:+$(realpath -m "$BUILT")}
. "$bench/begin.sh"

# proved NAME: sets `program` to a program of bench/programs.
proved() {
    if [ -z "$built" ]; then
        "$bench/build.sh" "$folder/built" "$1" >&2 || exit 2
    fi
    program=${built:-$folder/built}/crates/$1/out/$1
    [ -x "$program" ] || { echo "crates.sh: $program isn't there: build.sh builds it" >&2; exit 2; }
}

# plain NAME: sets `plain` to a program of bench/plain, to nothing where there is no rustc.
plain() {
    plain=
    if command -v rustc >/dev/null; then
        plain=$folder/plain_$1
        rustc -O -C target-cpu=x86-64-v2 -o "$plain" "$bench/plain/$1.rs" || exit 2
    else
        echo 'there is no rustc: the plain Rust program is not measured'
    fi
}

# measure TITLE COMMAND..: runs a command three times, and prints a row. What the last run printed
# stays in `said`.
measure() {
    title=$1
    shift
    rm -f taken
    for _ in 1 2 3; do timed taken "$@" >said || fails "$title: status $?"; done
    echo "| $title | $(middle taken) |"
}

# beside TITLE WORDS..: the same of the proved program and of the plain one, which must print the
# same.
beside() {
    of=$1
    shift
    measure "$of, proved" "$program" "$@"
    [ -n "$plain" ] || return
    mv said said_proved
    measure "$of, plain Rust" "$plain" "$@"
    cmp said_proved said || fails "$of: the two print something else"
}

heading() { printf '| %s | clock | processors | MB |\n|---|---|---|---|\n' "$1"; }

# The filling of labels, ten times, for eight zones of a grid of 60 nodes a side: 14,160 links of 4
# to 12 steps (36 km/h are 60 metres a step), 1,200 steps in buckets of 50. The corners are zones,
# and a node of each side.
fills() {
    proved fills
    plain fills
    awk -v n=60 'function link(to) {
        print ++l "," k + 1 "," to + 1 "," 60 * (4 + (l - 1) * 7 % 9) ",1,36,900" >"link.csv"
    }
    BEGIN {
        print "node_id,zone_id" >"node.csv"
        print "link_id,from_node_id,to_node_id,length,lanes,free_speed,capacity" >"link.csv"
        for (k = 0; k < n * n; k++) {
            r = int(k / n); c = k % n
            corner = (r == 0 || r == n - 1) && (c == 0 || c == n - 1)
            side = r % (n - 1) == 0 && c == n / 2 || c % (n - 1) == 0 && r == n / 2
            print k + 1 "," (corner || side ? k + 1 : "") >"node.csv"
            if (c + 1 < n) link(k + 1)
            if (c > 0) link(k - 1)
            if (r + 1 < n) link(k + n)
            if (r > 0) link(k - n)
        }
    }'
    heading fills
    measure 'the network read' "$program"
    beside 'ten fills' 1 2 3 4 5 6 7 8 9 10
}

# 10,000,000 moves of riders through a ring of 1,000 lines: each of 100,000 riders goes on to the
# next line in each of 100 steps.
lines() {
    proved lines
    plain lines
    heading lines
    beside '10,000,000 moves'
}

# The tables of loadings, each in a folder: grids of so many nodes a side, the same with nobody,
# nodes that are held up, a row of links, and nodes without links.
grid() { "$bench/grid.sh" "$@"; }

idle() {
    grid "$1"
    echo o_zone_id,d_zone_id,volume >demand.csv
}

# A grid without capacity, of which each node is a zone. From each other node a vehicle would go to
# the first one; it is due from step 300 on. So 3,599 nodes make a transfer and a gather without a
# move in 900 steps.
held() {
    grid 60
    sed -i 's/,900$/,0/' link.csv
    awk 'BEGIN {
        print "node_id,zone_id" >"node.csv"
        print "o_zone_id,d_zone_id,volume" >"demand.csv"
        for (k = 1; k <= 3600; k++) {
            print k "," k >"node.csv"
            if (k > 1) print k ",1,1" >"demand.csv"
        }
    }'
}

# 100 links between two zones. Each takes four steps and lets 200 vehicles in and out in a step; 166
# or 167 of 100,000 depart in one. So there are 10,100,000 moves.
row() {
    awk -v n=101 'BEGIN {
        print "node_id,zone_id" >"node.csv"
        print "link_id,from_node_id,to_node_id,length,lanes,free_speed,capacity" >"link.csv"
        for (k = 1; k <= n; k++) {
            print k "," (k == 1 ? 1 : k == n ? 2 : "") >"node.csv"
            if (k < n) print k "," k "," k + 1 ",240,1,40,120000" >"link.csv"
        }
    }'
    printf 'o_zone_id,d_zone_id,volume\n1,2,100000\n' >demand.csv
}

apart() {
    idle 60
    sed -i 1q link.csv
}

# milliseconds COLUMN FILE: the middle one of three runs, of which a file has the nanoseconds in a
# column of each first line of two.
milliseconds() {
    awk -v column="$1" 'NR % 2 { print $column }' "$2" | sort -n |
        awk 'NR == 2 { printf "%.1f", $1 / 1e6 }'
}

# load TITLE COUNT TABLES..: a row of the loadings of such tables; COUNT are the nodes times steps,
# or the moves.
load() {
    title=$1
    count=$2
    shift 2
    rm -rf tables && mkdir tables && cd tables || exit 2
    "$@"
    for workers in 1 2 4; do
        for _ in 1 2 3; do "$program" $workers >>"by_$workers" || fails "$title: status $?"; done
    done
    cells="$(milliseconds 1 by_1) | $(milliseconds 2 by_1)"
    cells="$cells | $(milliseconds 2 by_2) | $(milliseconds 2 by_4)"
    if [ -n "$plain" ]; then
        for _ in 1 2 3; do "$plain" >>by_plain || fails "$title: status $?"; done
        [ "$(tail -n 1 by_1)" = "$(tail -n 1 by_plain)" ] || fails "$title: other arrivals"
        cells="$cells | $(milliseconds 1 by_plain)"
    fi
    each=$(echo "$(milliseconds 1 by_1) $count" | awk '{ printf "%.1f", $1 * 1e6 / $2 }')
    echo "| $title | $cells | $each |"
    cd "$folder" || exit 2
}

loading_heading() {
    echo 'In milliseconds, but for the last column: nanoseconds of the plain loading for each node
and step, or for each move.'
    echo '| loading | plainly | 1 worker | 2 workers | 4 workers | plain Rust | each |'
    echo '|---|---|---|---|---|---|---|'
}

# Loadings of 1,200 steps, plainly and by workers, with a floor that is made and closed, beside a
# plain Rust program of the rules, which must come to the same. The workers do each unit of each
# step, and so does the plain Rust program, while the plain loading leaves idle nodes alone.
loading() {
    proved loading
    plain loading
    loading_heading
    for side in 30 60 100; do
        load "grid of $side with nobody" $((side * side * 1200)) idle $side
        load "grid of $side" $((side * side * 1200)) grid $side
    done
    load 'grid of 100, 199,992 vehicles' 12000000 grid 100 4 199992
    load 'nodes where nobody can move' 3239100 held
    load 'a row of links' 10100000 row
}

# The claims alone: 3,600 nodes without links, beside a plain Rust program in which so many workers
# claim, open and finish as many units by the same actions, and do no work.
floor() {
    proved loading
    plain=
    loading_heading
    load 'nodes without links' 4320000 apart
    plain floor
    [ -n "$plain" ] || return
    for workers in 1 2 4; do
        for _ in 1 2 3; do "$plain" $workers 3600 && echo; done |
            awk 'NR % 2 { print $2 "\n" }' >"claims_$workers"
        echo "plain Rust, $workers workers: $(milliseconds 1 "claims_$workers") ms"
    done
}

# 2,000,000 vehicles: of 4,000,000 rows of half a vehicle, and of 2,000 rows of a thousand.
release() {
    proved release
    heading release
    measure '4,000,000 rows of half a vehicle, made' "$program" small made
    measure '4,000,000 rows of half a vehicle, made and released' "$program" small released
    measure '2,000 rows of a thousand vehicles, made' "$program" large made
    measure '2,000 rows of a thousand vehicles, made and released' "$program" large released
}

# A ring of 200,000 nodes with 400,000 links. At each node each of the two links that end there may
# be followed by each of the two that begin there: 800,000 movements.
tables() {
    proved tables
    "$bench/ring.sh" 200000 1 7
    awk -v n=200000 'BEGIN {
        print "node_id,ib_link_id,ob_link_id,penalty,capacity"
        for (link = 1; link <= 2 * n; link++) {
            to = (int((link - 1) / 2) + (link % 2 == 1 ? 1 : 7)) % n + 1
            for (j = 1; j <= 2; j++)
                print to "," link "," 2 * (to - 1) + j "," link % 7 * j ",1200.5"
        }
    }' >movement.csv
    heading tables
    measure "tables of $(cat node.csv link.csv movement.csv | wc -c) bytes read" "$program"
}

# The agent table of 2,000,000 vehicles with routes of 30 links.
texts() {
    proved texts
    heading texts
    measure 'vehicles made' "$program" made
    measure 'made, and put to a desk that counts' "$program" counted
    measure 'made, and written to a file' "$program" written
}

# Three iterations on a grid of 100 nodes a side with 100 zones and 20,000 vehicles, 1,200 steps in
# buckets of 50. Workers share the first routes and the gaps with the next routes; one thread does
# the loadings and the link times. The gap of the last iteration is the same for all of them.
iteration() {
    proved iteration
    grid 100 100 20000
    for workers in 1 2 4; do
        heading iteration
        measure "$workers workers" "$program" $workers
        echo
        cat said
    done
}

for name in ${*:-$names}; do $name; done
exit $wrong
