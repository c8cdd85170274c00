#!/bin/sh
# want_of_memory.sh [--list]: lists where the sources write want of memory as a value. A run may
# answer want of memory without a cause that a clause names, so each place passes on what a call
# answered, and a new place has to be looked at before it is added to want_of_memory.txt beside this
# script. It runs no program. Prints each place that is new or gone, and ends with 0 where there are
# none; with --list it prints all places.
cd "$(dirname "$(readlink -f "$0")")/.." || exit 2

# The lines of code with a fault's `Memory` or with `AllocError` where it is no type: file and line.
places() {
    grep -rE --include='*.rt' '\bAllocError\b|::Memory\b' crates/*/src |
        grep -vE '^crates/worked_|:use |:\s*//|:ghost |fn from\(|<AllocError>|, AllocError>|= AllocError;' |
        sed -E 's/:\s+/: /' | LC_ALL=C sort
}

case ${1:-} in
    --list) places ;;
    '') places | diff checks/want_of_memory.txt - && echo 'want of memory is passed on as before' ;;
    *) echo 'usage: want_of_memory.sh [--list]' >&2; exit 2 ;;
esac
