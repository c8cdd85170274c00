# Read by runs.sh and crates.sh, which have set `bench` to this folder. Makes a folder that is gone
# at the end, and goes there.
# shellcheck shell=sh disable=SC2034
folder=$(mktemp -d)
trap 'rm -rf "$folder"' EXIT
trap 'exit 1' INT TERM
cd "$folder" || exit 2
wrong=0

# fails TEXT: tells of what isn't as it should be.
fails() {
    echo "FAILED: $1"
    wrong=1
}

# timed FILE COMMAND..: runs a command, and adds to the file what it takes.
timed() {
    times=$1
    shift
    /usr/bin/time -q -a -o "$times" -f '%e %U %S %M' "$@" </dev/null
}

# middle FILE: of the three runs that a file tells of, the middle one in seconds by the clock and
# the middle one in seconds of processors (with those of the kernel), and the largest peak of memory
# in MB.
middle() {
    clock=$(awk '{ print $1 }' "$1" | sort -n | sed -n 2p)
    busy=$(awk '{ print $2 + $3 }' "$1" | sort -n | sed -n 2p)
    awk -v clock="$clock" -v busy="$busy" '
        $4 > peak { peak = $4 }
        END { printf "%.2f | %.2f | %d", clock, busy, peak / 1024 }' "$1"
}
