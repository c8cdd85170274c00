#!/bin/sh
# script.sh DTA: tries the script `dta` of the repository, which is built, or the installed command:
# what it says on standard error, what it refuses to run, that standard output, files and statuses
# are those of the program, and what `package` makes. Prints each case that isn't as wanted, and how
# many are; ends with 0 where all are. It takes some two minutes.
checks=$(dirname "$(readlink -f "$0")")
. "$checks/begin.sh"
top=$(dirname "$checks")
script=$program
program=$(dirname "$script")/crates/dta/out/dta
[ -x "$program" ] || program=$(dirname "$(dirname "$script")")/lib/dta/dta
cases=0

# case_of TEXT COMMAND..: a case, which the command says is as wanted.
case_of() {
    case_name=$1
    shift
    cases=$((cases + 1))
    "$@" || fails "$case_name"
}

# Three nodes, two links in a line, three vehicles.
new_folder() {
    cd "$folder" && rm -rf case && mkdir case && cd case || exit 2
    "$checks/two_links.sh" 3
}

# Runs the script by the shell of the round; its sentences go to `said`.
run() {
    "$shell" "$script" "$@" >"$folder/report" 2>"$folder/said"
    status=$?
}

# ends STATUS TEXT WORDS..: a run ends so, and the text is in what is said; where it is empty
# nothing is said. Then a new folder begins.
ends() {
    wanted=$1
    text=$2
    shift 2
    run "$@"
    case_of "$shell dta $*: wanted $wanted, $text; got $status, $(cat "$folder/said")" is_said
    new_folder
}

is_said() {
    [ "$status" = "$wanted" ] || return 1
    if [ -n "$text" ]; then grep -Fq -- "$text" "$folder/said"; else [ ! -s "$folder/said" ]; fi
}

refused_words() {
    ends 2 "--costs can't be 'trip': it takes links, trips" assign --costs trip
    ends 2 'not an option of skim, but of assign, demo, counts and sweep' skim --costs links
    ends 2 'a command has to come first: freeflow, assign,'
    ends 2 "'assig' is not a command" assig
    ends 2 "'--step' stands before the command" --step 6 assign
    ends 2 "'--steps' is not an option; is --step meant?" assign --steps 6
    ends 2 "'-s6' is not an option; they begin with two dashes" assign -s6
    ends 2 "'--' is not an option" assign -- --step 6
    ends 2 "'yes' belongs to no option" assign --plain yes
    ends 2 '--plain takes no value' assign --plain=yes
    ends 2 '--step is given twice' assign --step 6 --horizon 60 --step=7
    ends 2 '--step needs a value: 1 to 60 seconds' assign --step --plain
    ends 2 '--link is not an option of assign, but of counts' assign --link 10
    ends 2 "--length-unit can't be 'ft': it takes m, km, mi" freeflow --length-unit ft
    ends 2 "--step can't be '61': it takes 1 to 60 seconds" freeflow --step 61 --jam 0
    ends 2 "--period can't be '61'" assign --period 61 --horizon 60
    ends 2 "--at can't be '0; 1'" skim --at '0; 1'
    ends 2 'sweep needs --scales' sweep
    ends 2 'demo needs a number, from 2 to 60' demo
    ends 2 "demo can't have the number '61': it goes from 2 to 60" demo 61
    ends 2 "'3' is a second number; demo takes one" demo 2 3
    ends 2 'dta help shows the commands and options' demo
    for word in '\377' 'M\374nchen' '\355\240\200' '\302\342\202'; do
        ends 1 "has a letter that isn't UTF-8 text" assign --step "$(printf %b "$word")"
    done
}

# refused STATUS TEXT FILE BYTES [WORDS..]: how a run ends over a table that has these bytes.
refused() {
    printf '%b' "$4" >"$3"
    wanted=$1
    text=$2
    shift 4
    [ $# -gt 0 ] || set -- freeflow
    ends "$wanted" "$text" "$@"
}

refused_tables() {
    links='link_id,from_node_id,to_node_id,length,lanes,free_speed,capacity\n10,1,2,'
    refused 3 'not separated by commas' node.csv 'node_id;zone_id\n1;1\n'
    refused 3 "column 'Node ID' meant?" node.csv 'Node ID,zone_id\n1,1\n'
    refused 3 'node.csv is UTF-16 text' node.csv '\0377\0376n\0000o\0000'
    refused 3 "a letter that isn't UTF-8" node.csv 'node_id,name\n1,M\0374nchen\n'
    refused 3 'Line 3 of node.csv has 3 fields, and the header has 2' node.csv \
        'node_id,name\n1,a\n2,b, c\n'
    refused 3 'makes two fields of one: write 0.5' link.csv "${links}0,5,1,60,600\n"
    refused 3 'the 1 others like it' node.csv 'node_id,zone_id\n1,1\n,\n,\n'
    refused 3 'is line 4 in an editor' node.csv 'node_id,zone_id\n\n1,1\nx,\n'
    refused 3 'goes over the lines 2 to 3 of the file' node.csv \
        'node_id,zone_id\n1,"1\n2,\n'
    refused 3 "has '1,5' as its length" link.csv "$links\"1,5\",1,60,600\n"
    refused 3 'write 1.500, or no comma where it parts thousands' link.csv \
        "$links\"1,500\",1,60,600\n"
    refused 3 'No unit stands in a field' link.csv "${links}500 m,1,60,600\n"
    refused 3 'write 1200.5, not 1 200.5' link.csv "${links}1 200,1,60,600\n"
    refused 3 'the format of whole numbers' node.csv 'node_id\n1E+05\n'
    refused 3 'it goes from 0 to 100' link.csv "${links}500,101,60,600\n"
    refused 3 'has the same node_id as line 2: 1.0' node.csv 'node_id\n1\n1.0\n'
    refused 3 "names node 9 (to_node_id), which isn't in node.csv" link.csv \
        "${links}500,1,60,600\n11,1,9,5,,,\n"
    refused 3 'write a link for each direction' link.csv \
        'link_id,from_node_id,to_node_id,length,directed\n10,1,2,500,0\n'
    refused 3 'try --length-unit m' link.csv "${links}1000.5,1,60,600\n" freeflow --length-unit km
    refused 3 "link 20 doesn't end at node 2" movement.csv \
        'node_id,ib_link_id,ob_link_id\n2,20,20\n' assign
    refused 3 'of an assign with another --horizon' times.csv \
        'link_id,from_step,to_step,entered,travel_steps,free_steps\n10,0,60,1,10,10\n' skim
    rm node.csv; ends 4 'There is no node.csv in this folder' freeflow
    mv demand.csv Demand.csv; ends 4 'Is Demand.csv this table?' assign
    rm link.csv; mkdir link.csv; ends 4 'link.csv is a folder' freeflow
    ends 4 'copy that to times.csv' skim
    ends 4 'copy that to start.csv' assign --start
    truncate -s 268435457 node.csv; ends 7 'node.csv has more than 268435456 bytes' freeflow
    refused 7 'more than 2000000' demand.csv 'o_zone_id,d_zone_id,volume\n1,3,2000001\n' assign
    ends 7 'Choose a shorter --horizon' demo 60 --horizon 86400
}

# Whether a process ends within half a minute.
is_gone() {
    for _ in $(seq 150); do
        [ -e "/proc/$1/cmdline" ] || return 0
        sleep 0.2
    done
    return 1
}

# Two runs of one folder, and files under two names.
refused_runs() {
    flock -s -F . sleep 99 &
    while flock -n -x . true; do sleep 0.1; done
    run demo 2 --horizon 1
    wanted=0 text=
    case_of 'a demonstration writes no file' is_said
    run freeflow
    wanted=9 text="Somebody has locked this folder, and it isn't a run of dta"
    case_of "a lock of somebody else: $(cat "$folder/said")" is_said
    text="of $(id -un): sleep 99"
    case_of "who has the lock: $(cat "$folder/said")" is_said
    kill $!
    new_folder
    held assign --horizon 86400 --iterations 1000
    run freeflow
    text='of '$(id -un)': dta assign --horizon 86400 --iterations 1000' wanted=9
    case_of "who has the folder: $(cat "$folder/said")" is_said
    kill $!
    process=$(sed -n 's/.*It is process \([0-9]*\) .*/\1/p' "$folder/said")
    case_of 'the program ends with the script' is_gone "$process"
    exec 9>&-
    wait
    new_folder
    ln -s demand.csv link_performance.csv
    ends 9 'link_performance.csv and demand.csv are one file' freeflow
    ln -s demand.csv agent.csv; ends 9 'agent.csv and demand.csv are one file' assign
    ln link.csv gap.csv; ends 9 'gap.csv and link.csv are one file' assign
    ln -s gap.csv agent.csv; ends 9 'gap.csv and agent.csv are one file' assign
    ln -s demand.csv origin_wait.csv
    ends 9 'origin_wait.csv and demand.csv are one file' assign --costs trips
    ln -s gap.csv origin_wait.csv
    ends 9 'gap.csv and origin_wait.csv are one file' assign --costs=trips
    ln -s demand.csv origin_wait.csv; ends 0 '' assign
    "$shell" "$script" assign --costs trips >origin_wait.csv 2>"$folder/said"; status=$?
    text='Standard output goes to origin_wait.csv' wanted=9
    case_of 'standard output to the origin waits' is_said
    new_folder
    ln -s link_performance.csv times.csv; ends 0 '' assign
    "$shell" "$script" assign >>demand.csv 2>"$folder/said"; status=$?
    text='Standard output goes to demand.csv' wanted=9
    case_of 'standard output to a table' is_said
    case_of 'a table that is appended to' [ "$(wc -l <demand.csv)" = 2 ]
    "$shell" "$script" assign >gap.csv 2>"$folder/said"; status=$?
    text='Standard output goes to gap.csv'
    case_of 'standard output to an output' is_said
    new_folder
}

# held WORDS..: begins a run that waits for its demand table, a pipe, which is then open as file 9.
held() {
    rm -f demand.csv
    mkfifo demand.csv
    env --default-signal=INT "$shell" "$script" "$@" >report 2>said &
    exec 9>demand.csv
}

# Gives a held run its demand, and sets `status`.
let_go() {
    printf 'o_zone_id,d_zone_id,volume\n1,3,3\n' >&9
    exec 9>&-
    wait $!
    status=$?
}

# linked TARGET FOLDER..: new folders whose gap.csv is a link to this file.
linked() {
    for place in "$folder/first" "$folder/second"; do
        rm -rf "$place" && cp -r "$folder/case" "$place" && ln -s "$1" "$place/gap.csv"
    done
    cd "$folder/first" || exit 2
}

# beside STATUS TEXT: how a run in the second folder ends, beside one that is held in the first.
beside() {
    wanted=$1 text=$2
    held assign
    cd ../second && run assign
    case_of "a link to the output of another run, $text: $status, $(cat "$folder/said")" is_said
    cd ../first && let_go
    case_of 'the other run ends' [ $status = 0 ]
}

# Two folders with an output that is a link to one file, or in one folder.
shared_outputs() {
    mkdir "$folder/target"
    linked ../target/gap.csv; beside 9 "Another run is at work in $folder/target, where an output"
    linked ../target/gap.csv; beside 9 "at work in $folder/target/gap.csv, where an output leads"
    linked ../target/gap.csv
    rm ../second/gap.csv && ln -s ../target/own.csv ../second/gap.csv && : >../target/own.csv
    beside 0 'the run writes to'
    linked ../first/words.txt
    rm gap.csv
    beside 9 "Another run is at work in $folder/first, where an output leads"
    linked no
    rm gap.csv ../second/gap.csv && : >gap.csv && ln gap.csv ../second
    beside 9 "Another run is at work in $folder/second/gap.csv, where an output leads"
    rm -rf "$folder/first" "$folder/second" "$folder/target"
    new_folder
}

# The status of a run whose standard error nobody reads.
unread() {
    { sleep 0.3; run_here "$@"; } | true
    status=$(cat "$folder/status")
}

run_here() {
    { "$shell" "$script" "$@" >"$folder/report"; } 2>&1
    echo $? >"$folder/status"
}

unread_sentences() {
    echo x >link_performance.csv
    unread assign
    case_of "a sentence before a run that nobody reads: $status" [ "$status" = 0 ]
    lines=$(cat gap.csv agent.csv link_performance.csv | wc -l)
    case_of 'the tables of that run' [ "$lines" = 55 ]
    unread assign --step 0
    case_of "refused words, and nobody reads why: $status" [ "$status" = 2 ]
    rm demand.csv
    unread assign
    case_of "no table, and nobody reads why: $status" [ "$status" = 4 ]
    new_folder
}

# A signal that the script gets alone. The report is put all the same.
interrupted_script() {
    held assign
    kill -INT $!
    let_go
    case_of "INT to the script alone: $status" [ "$status" = 0 ]
    case_of 'the report of an interrupted script' grep -qx 'arrived 3' report
    case_of 'the notes of an interrupted script' grep -q ' wrote agent.csv' words.txt
    new_folder
}

# Folders and files that are gone, or lead nowhere.
lost_places() {
    rm -r ../case; ends 4 'This folder was removed.' assign
    rm -r ../case
    run demo 2 --horizon 1
    case_of "a demonstration where the folder was removed: $status" [ "$status" = 0 ]
    new_folder
    held assign
    mv said report "$folder"
    rm -r ../case
    let_go
    wanted=5 text="agent.csv couldn't be written: the folder was removed."
    case_of "a folder that is removed in mid-run: $status, $(cat "$folder/said")" is_said
    new_folder
    rm node.csv; ln -s node.csv node.csv
    run freeflow
    wanted=4 text='node.csv is a link that leads to no file.'
    case_of "a link to itself: $(cat "$folder/said")" is_said
    case_of 'nothing else of it' [ "$(wc -l <"$folder/said")" = 1 ]
    new_folder
    printf 'o_zone_id,d_zone_id,volume\n1,3,9000\n' >demand.csv
    mkfifo agent.csv words.txt
    head -c 100 agent.csv >/dev/null &
    ends 5 "agent.csv couldn't be written: it is a pipe, and nobody reads it to its end." assign
    mkfifo words.txt
    ends 0 "words.txt, which tells how the tables were made, couldn't be written" assign
}

# without TOOL WORDS..: the status of a run where there is no such tool.
without() {
    mkdir "$folder/tools" && ln -s /usr/bin/* /bin/* "$folder/tools" 2>/dev/null
    rm "$folder/tools/$1"
    shift
    shell_path=$(command -v "$shell")
    PATH=$folder/tools "$shell_path" "$script" "$@" >"$folder/report" 2>"$folder/said"
    status=$?
    rm -rf "$folder/tools"
}

lost_tools() {
    wanted=0 text=
    for tool in stat readlink setpriv flock df env; do
        for words in '' --plain; do
            without $tool assign $words
            case_of "without $tool: $status, $(cat "$folder/said")" is_said
        done
        case_of "the notes without $tool" [ "$(wc -l <words.txt)" = 2 ]
        new_folder
    done
}

# A stack on which a long environment leaves the program no room.
small_stack() {
    long=$(head -c 84000 /dev/zero | tr '\0' x)
    (ulimit -s 128; exec env -i PATH="$PATH" LONG="$long" "$shell" "$script" sweep \
        --scales '1;2;1;1' >"$folder/report" 2>"$folder/said")
    status=$?
    wanted=139 text='The program was ended by the signal SEGV, as where the stack'
    case_of "a small stack: $status, $(cat "$folder/said")" is_said
    new_folder
}

# What is said before a run that is done.
told_before() {
    ln -s "$folder/elsewhere" agent.csv; ends 0 "the run writes to $folder/elsewhere" assign
    "$script" assign >/dev/null 2>&1
    ln gap.csv other; ends 0 'gap.csv has further names (hard links)' assign
    "$script" assign >/dev/null 2>&1
    ends 0 'link_performance.csv is here already, from assign; freeflow writes over it' freeflow
    echo x >origin_wait.csv
    ends 0 'origin_wait.csv is here already, from something else' assign --costs trips
    "$script" assign --costs trips >/dev/null 2>&1; ends 0 '' assign --costs trips
    "$script" freeflow >/dev/null 2>&1; ends 0 'from freeflow; assign writes over it' assign
    echo link,count >counts.csv; ends 0 'counts.csv is here already, from something else' counts
    "$script" assign >/dev/null 2>&1; ends 0 '' assign
    flags 1 ' 1.0'; ends 0 '' freeflow
    flags 1 ''; ends 0 '' assign
    flags 0 -1; ends 0 "in 2 rows it isn't 1:" freeflow
    flags 1 '"-1"'; ends 0 "in line 3: '-1'. Each row is one link" assign
    flags 0 0; ends 0 '' demo 2
}

# flags VALUE VALUE: gives both links this dir_flag.
flags() {
    printf 'link_id,dir_flag,from_node_id,to_node_id,length\n10,%s,1,2,9\n20,%s,2,3,9\n' "$@" \
        >link.csv
}

# noted LINE..: the lines of words.txt are these; none is meant where it isn't there.
noted() {
    [ "$(cat words.txt 2>/dev/null)" = "$(printf '%s\n' "$@")" ]
}

# by_now FILE..: the second line of a note, with the sizes that the files have now.
by_now() {
    printf 'dta %s wrote ' "$(sed -n 's/^## \([0-9.]*\),.*/\1/p' "$top/CHANGELOG.md" | sed 1q)"
    stat -c '%n (%s bytes),' "$@" | tr '\n' ' ' | sed 's/, $//'
}

# words.txt speaks of the tables that are there, and of no others.
notes_of_runs() {
    tables='agent.csv link_performance.csv gap.csv'
    run assign --period=9 --horizon 60
    loading=$(by_now $tables)
    case_of 'the words of a run' noted 'assign --period=9 --horizon 60' "$loading"
    cp link_performance.csv times.csv
    "$shell" "$script" skim --at '0;9' --horizon 60 >/dev/null 2>&1
    least=$(by_now skim.csv)
    case_of 'the words of two runs' noted 'skim --at 0;9 --horizon 60' "$least" \
        'assign --period=9 --horizon 60' "$loading"
    cp words.txt kept
    for words in 'assign --step 0' 'demo 2' 'audit'; do
        "$shell" "$script" $words >/dev/null 2>&1
        case_of "words.txt after $words" cmp -s words.txt kept
    done
    mv node.csv away
    "$shell" "$script" assign >/dev/null 2>&1
    case_of 'words.txt after a missing table' cmp -s words.txt kept
    mv away node.csv
    cp words.txt kept
    "$shell" "$script" assign --costs trips --period=9 --horizon 60 >/dev/null 2>&1
    case_of 'the words of a run by trips' noted 'assign --costs trips --period=9 --horizon 60' \
        "$(by_now agent.csv link_performance.csv origin_wait.csv gap.csv)" \
        'skim --at 0;9 --horizon 60' "$least"
    "$shell" "$script" assign --period=9 --horizon 60 >/dev/null 2>&1
    case_of 'the words of a run by links after it' noted 'assign --period=9 --horizon 60' \
        "$(by_now $tables)" 'skim --at 0;9 --horizon 60' "$least"
    rm gap.csv && ln -s /dev/full gap.csv
    "$shell" "$script" assign >/dev/null 2>&1
    case_of 'no words of tables that are written in part' noted \
        'skim --at 0;9 --horizon 60' "$least"
    new_folder
    "$script" freeflow >/dev/null 2>&1
    case_of 'the words of freeflow' noted freeflow "$(by_now link_performance.csv)"
    "$script" assign >/dev/null 2>&1
    case_of 'words of a table that is written over' noted assign "$(by_now $tables)"
    rm gap.csv && mkdir gap.csv && "$script" assign >/dev/null 2>&1
    case_of 'no words at all' noted ''
    new_folder
    mkdir words.txt; ends 0 "words.txt, which tells how the tables were made, couldn't" assign
    echo 'assign --period 9' >words.txt
    ends 0 'words.txt is here already, from something else' assign
    echo assign >words.txt; ends 0 '' assign
    ln -s link.csv words.txt; ends 9 'words.txt and link.csv are one file' assign
    ln -s gap.csv words.txt; ends 9 'words.txt and gap.csv are one file' assign
    "$shell" "$script" assign >words.txt 2>"$folder/said"; status=$?
    text='Standard output goes to words.txt' wanted=9
    case_of 'standard output to words.txt' is_said
    new_folder
}

unwritten_outputs() {
    mkdir agent.csv; ends 5 "agent.csv couldn't be written: a folder has its name" assign
    mkdir gap.csv; ends 5 'Written whole before it: agent.csv link_performance.csv.' assign
    ln -s /dev/full gap.csv; ends 5 "gap.csv couldn't be written" assign
    ln -s /dev/full origin_wait.csv
    ends 5 'before it: agent.csv link_performance.csv.' assign --costs trips
    ln -s /dev/full origin_wait.csv; ends 5 "origin_wait.csv couldn't be" assign --costs trips
    ln -s no/folder gap.csv; ends 5 'it is a link that leads nowhere' assign
    printf 'o_zone_id,d_zone_id,volume\n1,3,300\n' >demand.csv
    (ulimit -f 1; exec "$shell" "$script" assign >"$folder/report" 2>said)
    status=$?
    mv said "$folder/said"
    text="agent.csv couldn't be written: the limit of file sizes" wanted=5
    case_of "ulimit -f: status $status" is_said
    for stream in '>/dev/full' '>&-'; do
        new_folder
        eval "\"$shell\" \"$script\" assign $stream" 2>"$folder/said"
        status=$?
        text="The report couldn't be written to standard output."
        case_of "a report that goes to $stream: status $status" is_said
    done
    new_folder
}

# Outputs that are put whole and not kept.
unkept_outputs() {
    LD_PRELOAD=$unkept "$shell" "$script" assign >"$folder/report" 2>"$folder/said"
    status=$?
    text="An output isn't kept on its disk: the disk" wanted=5
    case_of "outputs that are not kept: status $status, $(cat "$folder/said")" is_said
    case_of 'the report of outputs that are not kept' grep -q '^gap_ppm ' "$folder/report"
    new_folder
}

# Runs the script on a terminal, in the folder `terminal`, for so many iterations.
run_on_a_terminal() {
    (cd terminal && script -qec "$shell '$script' assign --iterations $1 --horizon 01200 >report" \
        /dev/null) >"$folder/said"
}

# Whether the run of so many iterations said what is left.
told_what_is_left() {
    grep -Eq "dta: iteration [0-9]+ of $1, [0-9]+ % arrived, (less than|about) .* left" \
        "$folder/said"
}

# Sentences of a run on a terminal; the files are those of a run without one. A run that is over in
# a second or two may not say what is left, so one of twice as many iterations comes after it.
told_on_a_terminal() {
    printf 'o_zone_id,d_zone_id,volume\n1,3,3000\n' >demand.csv
    mkdir terminal && cp ./*.csv terminal || exit 2
    for iterations in 125 250 500 1000; do
        run_on_a_terminal "$iterations"
        if told_what_is_left "$iterations"; then break; fi
    done
    case_of 'a line of a long run' told_what_is_left "$iterations"
    "$program" assign --iterations "$iterations" --horizon 01200 >"$folder/report"
    cd terminal || exit 2
    case_of 'nothing but sentences' [ -z "$(grep -v '^dta: iteration' "$folder/said")" ]
    for file in agent.csv link_performance.csv gap.csv; do
        case_of "$file of a told run" cmp -s "$file" "../$file"
    done
    case_of 'the report of a told run' cmp -s report "$folder/report"
    case_of 'no other file but the notes' [ "$(ls | wc -l)" = 8 ]
    script -qec "$shell '$script' assign --watch 1200 --iterations 2 --plain" /dev/null \
        >"$folder/said"
    case_of 'watch lines that were asked for' grep -q '^2,1200,' "$folder/said"
    new_folder
}

help_of() {
    run help
    version=$(sed -n 's/^## \([0-9.]*\),.*/\1/p' "$top/CHANGELOG.md" | sed 1q)
    case_of 'the version in help' grep -q "^dta $version: " "$folder/report"
    case_of 'the commands in help' grep -q '^  dta assign \[options\]' "$folder/report"
    docs=$(sed -n 's/^The documents are in \(.*\); examples.*/\1/p' "$folder/report")
    for file in $(grep -o '[A-Z]*[.]md' "$folder/report"); do
        case_of "$file, which help names" [ -f "$docs/$file" ]
    done
    run --help
    case_of '--help' grep -q "^dta $version: " "$folder/report"
}

# Every list of words of words.sh is refused by the program where words.awk finds a fault, and
# otherwise not.
same_grammar() {
    cat >"$folder/both" <<BOTH
#!/bin/sh
"$program" "\$@"
status=\$?
fault=\$(cd "$top/command" && LC_ALL=C awk -f texts.awk -f options.awk -f words.awk -- \\
    ../docs/options.txt "\$@")
case "\$status\$fault" in
    2 | [!2]?*) printf '%s\n' "\$*: \$status, \$fault" >>"$folder/differs" ;;
esac
exit \$status
BOTH
    chmod +x "$folder/both"
    : >"$folder/differs"
    case_of 'words.sh' "$checks/words.sh" "$folder/both" >/dev/null
    case_of "the grammar differs: $(cat "$folder/differs")" [ ! -s "$folder/differs" ]
}

# bounded_sentence LINE TEXT: what refusals.awk says of a line of Report has this text, within two
# seconds of a processor and 50 MB.
bounded_sentence() {
    (ulimit -t 2; ulimit -v 51200; LC_ALL=C exec awk -f "$top/command/texts.awk" \
        -f "$top/command/refusals.awk" -- "$1" m kmh 6) >"$folder/said" 2>&1
    case_of "the sentence of $1: $(cat "$folder/said")" grep -Fq -- "$2" "$folder/said"
}

# Tables of bytes that nobody writes by hand.
bounded_sentences() {
    cd "$folder/case" || exit 2
    table=demand.csv
    truncate -s 64M $table
    bounded_sentence 'demand line 3: E2 BadRecord -' 'Line 3 of demand.csv has NULs'
    truncate -s 256M $table
    bounded_sentence 'demand line 3: E2 BadRecord -' 'Line 3 of demand.csv has NULs'
    : >$table; truncate -s 256M $table
    bounded_sentence 'demand line 1: E1 MissingColumn o_zone_id' 'has no column o_zone_id'
    for piece in x ',' '"' '","' '"\n' '\n,' 'x,\n' '1\n'; do
        { echo o_zone_id,d_zone_id,volume; printf '1,2,'
            yes "$(printf "$piece.")" | tr -d . | head -c 16000000; } >$table
        bounded_sentence 'demand line 2: E4 NotNumber volume' 'Line 2 of demand.csv'
        bounded_sentence 'demand line 9000000: E4 NotNumber volume' "these sentences don't look"
    done
    { echo node_id,zone_id; yes 11,2222222 | head -n 280000; echo 1,3; } >node.csv
    bounded_sentence 'node line 280002: E6 Duplicate node_id' 'has the same node_id as an earlier'
    new_folder
}

# completed WORDS..: what bash completes of the words.
completed() {
    bash -c '. tree/share/bash-completion/completions/dta
        COMP_WORDS=("$@")
        COMP_CWORD=$(($# - 1))
        _dta
        echo "${COMPREPLY[*]}"' - "$@"
}

packages() {
    mkdir "$folder/packages" && cd "$folder/packages" || exit 2
    file=$("$top/package" --tar)
    case_of 'a tarball' [ -f "$file" ]
    cp "$file" first && "$top/package" --tar >/dev/null
    case_of 'the same tarball twice' cmp -s "$file" first
    mkdir tree && tar -xzf "$file" -C tree --strip-components=1
    cp -r tree/share/dta/examples/two_routes . && cd two_routes || exit 2
    ../tree/bin/dta assign --period 1 --horizon 60 --iterations 2 >/dev/null 2>"$folder/said"
    case_of 'an example by the tree' grep -qx 2,84,84,0,0 gap.csv
    ../tree/bin/dta skim --at x 2>"$folder/said" >&2
    case_of 'a sentence by the tree' grep -q "can't be 'x'" "$folder/said"
    cd .. || exit 2
    printf ',1,2\n1,0,5\n' >matrix.csv
    case_of 'a tool by the tree' sh -c 'tree/bin/dta-from-matrix matrix.csv | grep -qx "volume 5"'
    for tool in dta-from-tntp dta-from-matrix dta-connectors; do
        zcat "tree/share/man/man1/$tool.1.gz" >manual
        case_of "$tool in the manual" grep -qx '.B \\-\\-to FOLDER' manual
    done
    case_of 'help by the tree' [ "$(tree/bin/dta help | head -c 4)" = 'dta ' ]
    case_of 'the page of the manual' gzip -t tree/share/man/man1/dta.1.gz
    zcat tree/share/man/man1/dta.1.gz | sed 's/\\-/-/g' >manual
    for option in $(sed -n 's/^  \(--[a-z-]*\) .*/\1/p' "$top/docs/options.txt"); do
        case_of "$option in the manual" grep -q -- "^.B $option" manual
    done
    case_of 'commands completed' [ "$(completed dta s)" = 'skim sweep' ]
    case_of 'options completed' [ "$(completed dta assign --w)" = '--workers --wave --watch' ]
    case_of 'values completed' [ "$(completed dta assign --queue = n)" = newell ]
    case_of 'costs completed' [ "$(completed dta assign --costs t)" = trips ]
    command -v dpkg-deb >/dev/null || { echo 'not tried: there is no dpkg-deb'; return; }
    file=$("$top/package" 2>/dev/null)
    dpkg-deb -x "$file" debian
    case_of 'one tree in both' diff -r --no-dereference debian/usr tree \
        --exclude=lintian --exclude=copyright --exclude=changelog.gz
    case_of 'the needs of the package' sh -c "dpkg-deb -f '$file' Depends | grep -q libc6"
}

make_unkept || unkept=
for shell in dash bash; do
    command -v $shell >/dev/null || { echo "not tried: there is no $shell"; continue; }
    new_folder
    refused_words
    refused_tables
    refused_runs
    shared_outputs
    unread_sentences
    interrupted_script
    lost_places
    lost_tools
    small_stack
    told_before
    notes_of_runs
    unwritten_outputs
    [ -z "$unkept" ] || unkept_outputs
    told_on_a_terminal
    help_of
done
same_grammar
bounded_sentences
[ ! -x "$top/package" ] || packages
echo "$((cases - failures)) of $cases cases are as wanted"
exit "$((failures > 0))"
