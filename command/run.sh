# Read by the script `dta` of the repository and by the installed command, which have set
#   program   the built program
#   share     the folder with command/, docs/options.txt and CHANGELOG.md
#   docs      the folder with the documents
# run_command WORDS.. runs the program with these words, and says in sentences on standard error
# what a planner should know of the run. Standard output has the program's bytes and nothing else.
# shellcheck shell=sh disable=SC2154,SC2086,SC2003,SC2010,SC3013

# The status with which nothing was run: the folder is in use, or two files are one.
in_the_way=9

# Says a sentence. Where nobody reads standard error the signal PIPE would end this script.
say() {
    (trap '' PIPE; printf 'dta: %s\n' "$*" >&2 2>/dev/null)
}

version() {
    sed -n 's/^## \([0-9.]*\),.*/\1/p' "$share/CHANGELOG.md" | sed 1q
}

# answer_help WORDS..: prints docs/options.txt and ends, where the words ask for it.
answer_help() {
    case "$#:${1:-}" in 1:help | 1:--help) ;; *) return ;; esac
    sed "1s/^dta:/dta $(version):/" "$share/docs/options.txt"
    echo "The documents are in $docs; examples/ and view/ are in $share."
    exit
}

# ---- the words

# is_given NAME WORDS..: whether the words give the option.
is_given() {
    name=--$1
    shift
    for word in "$@"; do
        case $word in "$name" | "$name="*) return 0 ;; esac
    done
    return 1
}

# value_of NAME DEFAULT WORDS..: the value that the words give the option.
value_of() {
    name=--$1
    value=$2
    shift 2
    while [ $# -gt 0 ]; do
        case $1 in
            "$name") value=${2:-} ;;
            "$name="*) value=${1#*=} ;;
        esac
        shift
    done
    printf '%s\n' "$value"
}

# Sets `tables` to the tables of the folder that a run must not write over, `outputs` to the files
# that it writes, and `words` to the one in which this script notes how they were made. Where
# times.csv or start.csv isn't read it may be a link to an output.
name_files() {
    tables='node.csv link.csv movement.csv demand.csv'
    outputs=
    case ${1:-} in
        freeflow) outputs=link_performance.csv ;;
        assign)
            outputs='agent.csv link_performance.csv gap.csv'
            [ "$(value_of costs links "$@")" != trips ] ||
                outputs='agent.csv link_performance.csv origin_wait.csv gap.csv'
            ! is_given start "$@" || tables="$tables start.csv"
            ;;
        skim) tables="$tables times.csv" outputs=skim.csv ;;
        counts) outputs=counts.csv ;;
        sweep) outputs=sweep.txt ;;
        audit | demo) ;;
        *) tables= ;;
    esac
    words=${outputs:+words.txt}
}

# ---- before the run

# is_one FILE FILE: whether two names lead to one file, also to one that isn't there yet. In a
# folder that was removed no name leads anywhere.
is_one() {
    if [ -e "$1" ]; then
        [ -f "$1" ] && [ "$1" -ef "$2" ]
    else
        way=$(readlink -m "$1" 2>/dev/null) && [ "$way" = "$(readlink -m "$2")" ]
    fi
}

# Ends where an output would be written over a table or over another output.
check_files() {
    others=$tables
    for output in $outputs $words; do
        for other in $others; do
            ! is_one "$output" "$other" || {
                say "$output and $other are one file, by a link, and the run would write over it."
                say 'Nothing was run. Remove the link, or put a copy in its place.'
                exit $in_the_way
            }
        done
        others="$others $output"
    done
    [ -n "$tables" ] || return
    for other in node.csv link.csv movement.csv demand.csv start.csv times.csv $outputs $words; do
        ! is_one /dev/fd/1 "$other" || refuse_stream 'Standard output' '>report.txt'
        ! is_one /dev/fd/2 "$other" || refuse_stream 'Standard error' '2>watch.txt'
    done
}

refuse_stream() {
    say "$1 goes to $other, a table or an output, and the shell may have emptied it already."
    say "Nothing was run. Send it to another file, as with $2."
    exit $in_the_way
}

# maker_of FILE: the command that writes a file with this first line.
maker_of() {
    case $(head -c 99 "$1" | tr -d '\0' | sed 1q) in
        '') echo nothing ;;
        agent_id,o_zone_id,d_zone_id,departure_step,* | link_id,from_step,* | \
            iteration,route_steps,*) echo assign ;;
        link_id,free_steps,storage) echo freeflow ;;
        o_zone_id,d_zone_id,start_step,*) echo skim ;;
        kind,first,second,from_step,*) echo counts ;;
        'scenario 0 scale '*) echo sweep ;;
        *) echo 'something else' ;;
    esac
}

# maker_of_words WORDS..: the command, where words.txt has notes of this script, or these words.
maker_of_words() {
    if [ ! -s words.txt ]; then echo nothing
    elif all_notes | grep -q '^dta .* wrote ' || [ "$(all_notes)" = "$*" ]; then echo "$1"
    else echo 'something else'
    fi
}

# What words.txt says, if it isn't the work of somebody else and very long.
all_notes() {
    head -c 999999 words.txt | tr -d '\0'
}

# Whether a file has several names.
has_names() {
    marks "$1" | grep -qv '^[^ ]* [^ ]* 1 '
}

# tell_outputs WORDS..: says which outputs lead elsewhere, and which are there from another
# command.
tell_outputs() {
    for output in $outputs $words; do
        [ ! -h "$output" ] || say "$output is a link: the run writes to $(readlink -m "$output")."
        [ -f "$output" ] || continue
        ! has_names "$output" ||
            say "$output has further names (hard links): the run writes over the file of them all."
        if [ "$output" = words.txt ]; then maker=$(maker_of_words "$@")
        else maker=$(maker_of "$output"); fi
        [ "$maker" = "$1" ] || [ "$maker" = nothing ] ||
            say "$output is here already, from $maker; $1 writes over it once all is accepted."
    done
}

# tell_directions COMMAND: says so where link.csv has DTALite's dir_flag, and it isn't 1.
tell_directions() {
    [ -n "$tables" ] && [ "$1" != demo ] && [ -f link.csv ] || return
    head -c 9999 link.csv 2>/dev/null | sed 1q | grep -q dir_flag || return
    LC_ALL=C awk -f "$share/command/texts.awk" -f "$share/command/refusals.awk" -- directions >&2
}

# Sets `start` to what starts the program so that it ends where this script is ended, and `locks`
# to the locks by which it is alone among the runs that write to the same files.
prepare_start() {
    start='setpriv --pdeathsig TERM'
    $start true 2>/dev/null || start=
    locks=
    [ -z "$outputs" ] || name_locks
    try_locks
}

# Sets `locks`, one a line, each a kind of flock and a path: this folder, and where an output is a
# file of several names, or a link, that file. The folder of such a file may be that of a run, and
# is shared by those whose links lead there; where the file isn't there yet it can't be shared.
name_locks() {
    locks='-x .
'
    for output in $outputs $words; do
        [ ! -h "$output" ] || [ -e "$output" ] || add_lock -x "$(way_of "$output")/."
    done
    for output in $outputs $words; do
        [ -f "$output" ] || continue
        [ ! -h "$output" ] || add_lock -s "$(way_of "$output")/."
        { [ ! -h "$output" ] && ! has_names "$output"; } ||
            add_lock -x "$(readlink -f "$output" 2>/dev/null)"
    done
}

# The folder of the file to which a link leads.
way_of() {
    way=$(readlink -m "$1" 2>/dev/null)
    printf '%s\n' "${way%/*}"
}

# add_lock KIND PATH: one more lock, unless it is there.
add_lock() {
    case $locks in *" $2
"*) return ;; esac
    [ ! -e "$2" ] || [ "$2" -ef . ] || locks="$locks$1 $2
"
}

# Ends where somebody has one of the locks; leaves out those that can't be had.
try_locks() {
    wanted=$locks
    locks=
    part_lines
    for lock in $wanted; do
        flock -n -E $in_the_way "${lock%% *}" "${lock#* }" true 2>/dev/null
        case $? in
            0) locks="$locks$lock
" ;;
            "$in_the_way") part_words; tell_holder "${lock#* }"; exit $in_the_way ;;
        esac
    done
    part_words
}

# Whether texts are parted into lines or into words where no quotes are.
part_lines() {
    set -f
    IFS='
'
}

part_words() {
    set +f
    unset IFS
}

# start_program WORDS..: the program takes the place of this shell, with its locks.
start_program() {
    share_memory "$@"
    set -- "$program" "$@"
    part_lines
    for lock in $locks; do
        set -- flock -n -F -E $in_the_way "${lock%% *}" "${lock#* }" "$@"
    done
    part_words
    exec $start "$@"
}

# Where memory is bounded all threads share one region of it, and each has a small stack. Else the C
# library gives each a region and 8 MB of its own, while there is room for them, and what is needed
# later may lack it. Regions of their own make runs faster in which threads make the routes of many
# vehicles, so it isn't done where memory isn't bounded. The stack has to hold words and environment
# too.
share_memory() {
    is_bounded || return
    export MALLOC_ARENA_MAX="${MALLOC_ARENA_MAX-1}"
    [ "$( (env; printf '%s\n' "$@") | wc -c)" -gt 32000 ] ||
        [ "$(ulimit -S -s)" -le 256 ] 2>/dev/null || ulimit -S -s 256
}

is_bounded() {
    [ "$(ulimit -v)" != unlimited ]
}

# tell_holder PATH: says who has the lock of the folder or file: the program itself, under its
# process id, or somebody else.
tell_holder() {
    place='this folder'
    [ "$1" = . ] || place="${1%/.}, where an output leads"
    inode=$(ls -diL "$1" | sed 's/^ *\([0-9]*\) .*/\1/')
    process=$(awk -v end=":$inode" '
        $2 == "FLOCK" && substr($6, length($6) - length(end) + 1) == end { print $5; exit }
        ' /proc/locks 2>/dev/null)
    holder=
    [ -z "$process" ] || [ ! -r "/proc/$process/cmdline" ] ||
        holder=$(head -c 500 "/proc/$process/cmdline" | tr '\0\n' '  ' | sed 's/ $//')
    first=${holder%% *}
    case ${first##*/} in
        '') say "Another run is at work in $place, or somebody has locked it." ;;
        "${program##*/}")
            say "Another run is at work in $place, and two at once would mix their files."
            holder=dta${holder#"$first"}
            ;;
        *) say "Somebody has locked $place, and it isn't a run of dta." ;;
    esac
    say 'Nothing was run. Wait until it ends, or run in a copy of the folder.'
    [ -z "$holder" ] ||
        say "It is process $process of $(ls -ld "/proc/$process" | awk '{ print $3 }'): $holder"
}

# ---- the run

# Whether the script asks for watch lines itself, to make sentences of them.
is_told() {
    [ -t 2 ] && [ -r /proc/uptime ] || return 1
    case ${1:-} in assign | demo) ;; *) return 1 ;; esac
    ! is_given watch "$@" || return 1
    horizon=$(expr "$(value_of horizon 1200 "$@")" + 0 2>/dev/null) &&
        iterations=$(expr "$(value_of iterations 1 "$@")" + 0 2>/dev/null)
}

# Runs the program. Sets `report` to what it puts to standard output, and `status`.
run_program() {
    if is_told "$@"; then
        report=$(run_told "$@" --watch "$((horizon / 10 + 1))")
        status=$?
        case $report in *=*) status=${report##*=} report=${report%=*} ;; esac
    else
        # The program takes the place of the inner shell, so this script is its parent.
        report=$(start_program "$@")
        status=$?
        report=$report${report:+"
"}
    fi
}

# Runs the program once more where memory is bounded and threads may have taken what there was. The
# one worker has no thread, and the results are the same.
run_alone() {
    [ "$status" = 6 ] && is_bounded && ! is_given watch "$@" || return
    case $1 in assign | demo | counts | sweep) ;; *) return ;; esac
    [ "$(value_of workers 4 "$@")" -ne 1 ] || return
    say 'There was not enough memory for several threads. Once more, with one worker:'
    skip=
    for word in "$@"; do
        shift
        case ${skip:-$word} in
            skip) skip= ;;
            --workers) skip=skip ;;
            --workers=*) ;;
            *) set -- "$@" "$word" ;;
        esac
    done
    run_program "$@" --workers 1
}

# Runs the program, and makes sentences of its watch lines. Prints what it puts to standard output,
# and then `=` and its status.
run_told() {
    { { (start_program "$@") 2>&3 3>&- 4>&-; printf '=%s' $?; } 3>&1 >&4 |
        tell_progress >&2 4>&-; } 4>&1
}

# Makes sentences of watch lines; other lines are passed on.
tell_progress() {
    IFS=,
    began=$(seconds)
    told=$began
    while read -r line; do
        case $line in
            *[!0-9,]* | '') printf '%s\n' "$line" ;;
            *) tell_state $line ;;
        esac
    done
}

# The seconds since the machine was started.
seconds() {
    read -r now </proc/uptime
    echo "${now%%.*}"
}

# tell_state ITERATION STEPS WAITING RUNNING ARRIVED ..: says so at the end of an iteration, and
# each ten seconds within it, but once a second at most.
tell_state() {
    now=$(seconds)
    pause=1
    text="iteration $1 of $iterations"
    [ "$2" -eq "$horizon" ] || { pause=10 text="$text, step $2 of $horizon"; }
    [ $((now - told)) -ge $pause ] || return
    told=$now
    count=$(($3 + $4 + $5))
    [ $count -eq 0 ] || text="$text, $((100 * $5 / count)) % arrived"
    steps=$((($1 - 1) * horizon + $2))
    left=$(((now - began) * (iterations * horizon - steps) / steps))
    case $(((left + 30) / 60)) in
        0) [ $left -eq 0 ] || text="$text, less than a minute left" ;;
        1) text="$text, about a minute left" ;;
        *) text="$text, about $(((left + 30) / 60)) minutes left" ;;
    esac
    say "$text"
}

# ---- after the run

# What tells of each output whether the run began it: a line as of ls.
marks() {
    [ -z "$1" ] || ls -dLinU --full-time $1 2>/dev/null | tr -s ' '
}

# Whether the folder was removed since somebody went there.
is_removed() {
    ! env pwd >/dev/null 2>&1
}

# Why an output couldn't be made, where that is seen.
why_not_made() {
    if is_removed; then echo 'the folder was removed'
    elif [ -d "$1" ]; then echo 'a folder has its name'
    elif [ -e "$1" ] && [ ! -w "$1" ]; then echo 'it may not be written over'
    elif [ -e "$1" ] && [ ! -f "$1" ]; then echo 'it is a device or a pipe, which may be full'
    elif [ -h "$1" ] && [ ! -e "$1" ]; then echo 'it is a link that leads nowhere'
    elif [ ! -e "$1" ] && [ ! -w . ]; then echo 'the folder may not be written to'
    fi
}

why_not_whole() {
    if [ "$(ulimit -f)" != unlimited ]; then echo 'the limit of file sizes, ulimit -f, cut it off'
    else why_no_room
    fi
}

why_no_room() {
    if [ "$(df --output=avail . | sed 1d | tr -d ' ')" = 0 ]; then echo 'the disk is full'
    else echo 'the disk or your share of it may be full'
    fi
}

# Says so where a sync failed. Report is put after all other outputs, so the run was done.
tell_unkept() {
    say "An output isn't kept on its disk: $(why_no_room), or the disk fails."
    say "Don't use what the run wrote: $outputs."
}

# tell_unwritten BEFORE WORDS..: says which output couldn't be written, by the marks before the run.
tell_unwritten() {
    before=$1
    begun=
    whole=
    next=
    shift
    for output in $outputs; do
        mark=$(marks "$output")
        case "$before" in
            *"$mark"*) next=$output; break ;;
        esac
        whole="$whole${begun:+ $begun}"
        begun=$output
    done
    why=${next:+$(why_not_made "$next")}
    if [ -n "$why" ]; then whole="$whole${begun:+ $begun}" begun=$next
    elif [ -p "$begun" ]; then why='it is a pipe, and nobody reads it to its end'
    elif [ -n "$begun" ]; then
        why=$(why_not_whole)
        # On a full disk the next one may have found no room to begin.
        case $why in *disk*) [ -e "${next:-.}" ] || begun="$begun or $next" ;; esac
    elif is_given watch "$@"; then begun='standard error' why='nobody reads it, or it is full'
    else begun=$next why=$(why_not_whole)
    fi
    say "$begun couldn't be written: $why."
    [ -z "$whole" ] || say "Written whole before it:$whole."
}

# note_words WORDS..: writes to words.txt by which words the run's tables were made, with the sizes
# of these, by which a reader sees whether they are there still. What it says of earlier runs
# stays, but of one whose tables this run has begun to write over. Where nothing is left to say it
# goes.
note_words() {
    [ "$(marks "$outputs")" != "$before" ] || return
    notes=$(earlier_notes)
    [ "$status" -ne 0 ] || notes="$*
dta $(version) wrote $(marks "$outputs" | awk '
        { printf "%s%s (%s bytes)", comma, $NF, $2 ~ /^[bc]/ ? 0 : $6; comma = ", " }')${notes:+
}$notes"
    if [ -z "$notes" ]; then [ ! -f words.txt ] || rm words.txt 2>/dev/null
    else [ ! -p words.txt ] && { printf '%s\n' "$notes" >words.txt; } 2>/dev/null
    fi && return
    why=$(why_not_made words.txt)
    why=${why:-$(why_no_room)}
    say "words.txt, which tells how the tables were made, couldn't be written: $why."
}

# The notes of runs whose tables this run hasn't written over, two lines each.
earlier_notes() {
    [ ! -f words.txt ] || all_notes | awk -v outputs=" $outputs " '
        !/^dta .* wrote / { words = $0; next }
        {
            count = split($0, part, " ")
            for (k = 1; k <= count; k++) if (index(outputs, " " part[k] " ")) next
            print words "\n" $0
        }'
}

# tell_status LINE BEFORE WORDS..: says what the status and the first line of Report mean.
tell_status() {
    line=$1
    before=$2
    shift 2
    case $status in
        1 | 2) tell_words "$@" ;;
        4) tell_read_fault "${line##* }" ;;
        3 | 7 | 8)
            LC_ALL=C awk -f "$share/command/texts.awk" -f "$share/command/refusals.awk" -- \
                "$line" "$(value_of length-unit m "$@")" "$(value_of speed-unit kmh "$@")" \
                "$(value_of step 6 "$@")" >&2
            ;;
        5) if [ -n "$line" ]; then tell_unkept; else tell_unwritten "$before" "$@"; fi ;;
        6)
            say 'There was not enough memory. No output was begun.'
            say 'A shorter --horizon, a longer --step or fewer --workers take less.'
            ;;
        "$in_the_way") try_locks; say 'Another run was at work in this folder. Nothing was run.' ;;
        137) say 'The program was killed. The system does so where memory runs out.' ;;
        139)
            say 'The program was ended by the signal SEGV, as where the stack (ulimit -s) is small.'
            say 'The system keeps words and environment there too.'
            ;;
    esac
}

# tell_read_fault TABLE: says why a table couldn't be read.
tell_read_fault() {
    if [ -d "$1.csv" ]; then say "$1.csv is a folder."
    elif [ -e "$1.csv" ]; then say "$1.csv can't be read: look at who may read it."
    elif [ -h "$1.csv" ]; then say "$1.csv is a link that leads to no file."
    elif is_removed; then say 'This folder was removed.'
    else
        say "There is no $1.csv in this folder, $(pwd)."
        other=$(ls -f | grep -ai "^$1.*[.]\(csv\|txt\)" | head -n 1)
        [ -z "$other" ] || say "Is $other this table? Its name has to be $1.csv."
    fi
    case $1 in
        times) say 'It is the link_performance.csv of an assign: copy that to times.csv.' ;;
        start) say 'It is the agent.csv of an earlier assign: copy that to start.csv.' ;;
    esac
}

# tell_words WORDS..: names the first of refused words that isn't text, or isn't in the grammar.
tell_words() {
    LC_ALL=C awk -f "$share/command/texts.awk" -f "$share/command/options.awk" \
        -f "$share/command/words.awk" -- "$share/docs/options.txt" "$@" >&2
    say 'dta help shows the commands and options.'
}

run_command() {
    name_files "$@"
    check_files
    prepare_start
    tell_outputs "$@"
    tell_directions "${1:-}"
    # So that a file that grows past ulimit -f ends the run with status 5, and not by a signal.
    trap '' XFSZ
    # Where INT reaches this script alone the run goes on, and its report is put.
    trap 'interrupted=1' INT
    interrupted=
    before=$(marks "$outputs")
    run_program "$@"
    run_alone "$@"
    note_words "$@"
    if (trap '' PIPE; printf '%s' "$report") 2>/dev/null || [ "$status" -ne 0 ]; then
        tell_status "$(printf '%s' "$report" | sed 1q)" "$before" "$@"
    else
        status=5
        say "The report couldn't be written to standard output."
        [ -z "$outputs" ] || say "Written whole before it: $outputs."
    fi
    # As after Ctrl-C, which ends the program by the same signal.
    [ -z "$interrupted" ] || [ "$status" -ne 130 ] || { trap - INT; kill -INT $$; }
    exit "$status"
}
