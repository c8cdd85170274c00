# Read by words.sh and refusals.sh, which have set `checks` to this folder. A case is a run over six
# small tables, in which something may be changed before it.
# shellcheck shell=sh disable=SC2154
. "$checks/begin.sh"
cases=0
outputs='agent.csv link_performance.csv origin_wait.csv gap.csv skim.csv counts.csv sweep.txt'

# The tables of a case: two links in a line and the one turn between them, three vehicles, and what
# an assignment with `--period 30 --horizon 60` tells of them. A link takes ten steps.
mkdir "$folder/first" && cd "$folder/first" || exit 2
"$checks/two_links.sh" 3
printf '%s\n' node_id,ib_link_id,ob_link_id,penalty,capacity,capacity_by_step \
    2,10,20,,, >movement.csv
printf '%s\n' agent_id,o_zone_id,d_zone_id,departure_step,arrival_step,status,link_ids,entry_steps \
    '0,1,3,5,25,arrived,10;20,5;15' '1,1,3,15,35,arrived,10;20,15;25' \
    '2,1,3,25,45,arrived,10;20,25;35' >start.csv
printf '%s\n' link_id,from_step,to_step,entered,travel_steps,free_steps \
    10,0,50,3,10,10 10,50,60,0,10,10 20,0,50,3,10,10 20,50,60,0,10,10 >times.csv

# begin_case: a new folder with these tables, which is then the current one.
begin_case() {
    rm -rf "$folder/case"
    cp -r "$folder/first" "$folder/case"
    cd "$folder/case" || exit 2
    told=
}
begin_case

# What a case changes; `told` says it where the case isn't as wanted.

# change TABLE EXPRESSION: what sed makes of a table.
change() {
    told="$told, $*"
    sed -i "$2" "$1.csv"
}

# field TABLE LINE COLUMN TEXT: another text in a field. A column that isn't there is added, with
# empty fields on the other lines.
field() {
    told="$told, $*"
    text=$4 awk -F , -v OFS=, -v line="$2" -v column="$3" '
        NR == 1 { for (at = 1; at <= NF && $at != column; at++); $at = column }
        NF < at { $at = "" }
        NR == line { $at = ENVIRON["text"] }
        { print }' "$1.csv" >changed
    mv changed "$1.csv"
}

# without TABLE COLUMN: a table without a column.
without() {
    told="$told, $1 without $2"
    place=$(sed 1q "$1.csv" | tr , '\n' | grep -nx "$2" | cut -d : -f 1)
    cut -d , -f "$place" --complement "$1.csv" >changed
    mv changed "$1.csv"
}

# text TABLE TEXT: another table, with the backslashes that `printf %b` knows.
text() {
    told="$told, $*"
    printf '%b' "$2" >"$1.csv"
}

# gone TABLE: no such table.
gone() {
    told="$told, no $1"
    rm -f "$1.csv"
}

# folder_for FILE: a folder in place of a table or an output.
folder_for() {
    told="$told, a folder $1"
    rm -f "$1"
    mkdir "$1"
}

# rows TABLE FORMAT FIRST LAST: rows behind those of a table, one for each number.
rows() {
    told="$told, $*"
    seq -f "$2" "$3" "$4" >>"$1.csv"
}

# is_told LINE: whether a refusal's line is all of Report and no output was made; or, where the
# program did its work, whether the line stands in Report, in Watch or in an output. Where an output
# can't be written Report is empty.
is_told() {
    if [ "$wanted" -eq 0 ]; then
        cat report watch $outputs 2>/dev/null | grep -Fqx -- "$1"
        return
    fi
    if [ "$wanted" -eq 5 ]; then
        [ ! -s report ]
        return
    fi
    printf '%s\n' "$1" | cmp -s - report || return 1
    for output in $outputs; do [ ! -e "$output" ] || return 1; done
}

# ends STATUS LINE WORDS..: a run with these words ends so. Then a new case begins; after words that
# are refused over the first tables, in the same folder.
ends() {
    wanted=$1
    line=$2
    shift 2
    cases=$((cases + 1))
    "$program" "$@" >report 2>watch
    status=$?
    { [ "$status" -eq "$wanted" ] && is_told "$line"; } ||
        fails "dta $*$told: wanted $wanted, $line; got $status, $(head -n 1 report)
            $(ls -d $outputs 2>/dev/null | tr '\n' ' ')"
    [ "$status$told" = 2 ] || begin_case
}

# done_with LINE WORDS..: a run that does its work. usage WORDS..: words that are refused.
done_with() { ends 0 "$@"; }
usage() { ends 2 'usage: dta COMMAND [options]' "$@"; }

# end_cases: says how many cases are as wanted, and ends with 0 where all are.
end_cases() {
    echo "$((cases - failures)) of $cases cases are as wanted"
    exit "$((failures > 0))"
}
