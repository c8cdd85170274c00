#!/bin/sh
# stress.sh PROGRAM [RUNS]: runs loadings by workers again and again. For each number of workers
# from 1 to 16 so many runs (200 where none is said) of a jammed ring with storage, by spatial
# queues, of `demo 6 --iterations 3` and of `demo 14`: first one after another, then by four such
# loops side by side, then with all threads on one processor, where taskset is found. Each run must
# end within a minute with the bytes of the run with --plain. Prints the seconds that the runs by
# each number of workers took. Ends with 0 where all held.
checks=$(dirname "$(readlink -f "$0")")
more='[RUNS]'
. "$checks/begin.sh"
runs=${1:-200}

# The tables of a small net with short links, in which queues fill and block one another.
make_net() {
    cd "$1" || exit 1
    printf 'node_id,zone_id\n1,1\n2,2\n3,3\n4,4\n' >node.csv
    {
        echo link_id,from_node_id,to_node_id,length,lanes,free_speed,capacity
        for n in 1 2 3 4; do
            echo "$n,$n,$((n % 4 + 1)),$((15 + 10 * n)),1,40,$((600 * n))"
            echo "$((n + 4)),$((n % 4 + 1)),$n,$((35 - 5 * n)),1,50,900"
        done
    } >link.csv
    {
        echo o_zone_id,d_zone_id,volume
        for o in 1 2 3 4; do for d in 1 2 3 4; do
            [ $o = $d ] || echo "$o,$d,12"
        done; done
    } >demand.csv
}

# The words before each run: none, or those that keep it on one processor.
on=

# One run with these words.
run_once() {
    # shellcheck disable=SC2086
    $on timeout 60 "$program" "$@"
}

# Runs over the net in the current folder, and two demonstrations, with these options; prints what
# they write.
all() {
    run_once assign --period 40 --horizon 300 --iterations 2 --queue spatial "$@" &&
        cat agent.csv link_performance.csv gap.csv &&
        run_once assign --period 40 --horizon 300 --iterations 2 --queue spatial \
            --costs trips "$@" &&
        cat agent.csv link_performance.csv origin_wait.csv gap.csv &&
        run_once demo 6 --iterations 3 "$@" &&
        run_once demo 14 "$@"
}

# So many runs of all by so many workers, in the current folder, all like the plain ones.
runs_by() {
    run=0
    while [ $run -lt "$2" ]; do
        run=$((run + 1))
        all --workers "$1" >now || {
            echo "run $run by $1 workers failed or didn't end within a minute"
            return 1
        }
        cmp now "$folder/plain" || {
            echo "run $run by $1 workers wrote other bytes"
            return 1
        }
    done
}

# The runs by each number of workers, in a folder of their own.
loop() {
    mkdir "$folder/$1"
    make_net "$folder/$1"
    for workers in 1 2 3 4 5 6 7 8 9 10 11 12 13 14 15 16; do
        begin=$(date +%s%N)
        runs_by $workers "$2" || return 1
        echo "  $workers workers: $((($(date +%s%N) - begin) / 1000000)) ms"
    done
}

mkdir "$folder/net"
make_net "$folder/net"
all --plain >"$folder/plain" || exit 1
echo "one loop, $runs runs with each number of workers:"
loop alone "$runs" || exit 1
echo "four loops side by side:"
for side in 1 2 3 4; do
    (loop "side_$side" "$runs" >"$folder/said_$side" 2>&1; echo $? >"$folder/ended_$side") &
done
wait
cat "$folder/said_1"
for side in 1 2 3 4; do
    [ "$(cat "$folder/ended_$side")" = 0 ] || { cat "$folder/said_$side"; exit 1; }
done
if command -v taskset >/dev/null; then
    echo "one loop on one processor:"
    on='taskset -c 0'
    loop one_processor "$runs" || exit 1
fi
echo "one set of bytes, and none hung"
