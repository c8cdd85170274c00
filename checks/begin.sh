# Read by the scripts of this folder, whose first argument is a built program; `more` says what may
# stand behind it. Sets `program` to its path, takes it from the arguments, and goes to a folder
# that is gone at the end.
# shellcheck shell=sh disable=SC2034
if [ $# -eq 0 ] || { [ $# -gt 1 ] && [ -z "${more:-}" ]; } || [ ! -x "$1" ]; then
    echo "usage: $(basename "$0") PROGRAM ${more:-}
PROGRAM is the path of a built program" >&2
    exit 2
fi
program=$(realpath "$1")
shift
folder=$(mktemp -d)
trap 'rm -rf "$folder"' EXIT
trap 'exit 1' INT TERM
cd "$folder" || exit 2
failures=0
exec 3>&1

# fails NAME: tells of a check that failed, also where the output of the check goes to a file.
fails() {
    printf 'FAILED: %s\n' "$1" >&3
    failures=$((failures + 1))
}

# end TEXT: ends with 0 and says this where no check failed, and with 1 otherwise.
end() {
    [ "$failures" -eq 0 ] && echo "$1"
    exit "$((failures > 0))"
}

# Makes a library, `unkept`, by which each sync of a file fails where it is loaded before the C
# library; or says that it can't.
make_unkept() {
    unkept=$folder/unkept.so
    command -v cc >/dev/null || { echo 'not tried: there is no C compiler'; return 1; }
    printf '#include <errno.h>\nint fsync(int file) { (void)file; errno = EIO; return -1; }\n' |
        cc -shared -fPIC -o "$unkept" -x c -
}
