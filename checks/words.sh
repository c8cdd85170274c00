#!/bin/sh
# words.sh PROGRAM: runs a built program with words that are refused, for each option of each
# command, and with each option that a command takes, where some line of an output shows what the
# option changes. What is wanted follows from docs/FORMATS.md and docs/MODEL.md by hand. Prints each
# case that isn't as wanted, and how many are; ends with 0 where all are.
checks=$(dirname "$(readlink -f "$0")")
. "$checks/cases.sh"

# The commands and their options.

everywhere='step jam length-unit speed-unit'
over_steps="$everywhere horizon bucket"
loading="$over_steps period queue wave"
assigning="$loading iterations workers costs"

# options_of COMMAND: its options.
options_of() {
    case $1 in
        freeflow) echo "$everywhere" ;;
        assign) echo "$assigning watch plain start" ;;
        demo) echo step jam horizon bucket period queue wave iterations workers costs watch plain ;;
        skim) echo "$over_steps at" ;;
        counts) echo "$assigning plain link" ;;
        sweep) echo "$assigning scales" ;;
        audit) echo "$loading" ;;
    esac
}

# values_of OPTION: a value that is accepted, and then some that aren't; - stands for none.
values_of() {
    case $1 in
        step) echo 6 0 61 - x +6 -6 6.0 6e0 0x6 6, 0000000006 ;;
        jam) echo 125 0 1001 - ;;
        length-unit) echo m M ft metres - ;;
        speed-unit) echo kmh KMH km/h ms - ;;
        horizon) echo 60 0 86401 - ;;
        period) echo 30 0 1201 - ;;
        iterations) echo 2 0 1001 - ;;
        workers) echo 2 0 17 - ;;
        bucket) echo 50 0 86401 - ;;
        queue) echo point Point spacial - ;;
        wave) echo 20 0 101 20.0 - ;;
        costs) echo trips Trips link trip links, both - ;;
        watch) echo 10 86401 -1 - ;;
        at) echo 0 1200 '0;' ';0' '0;;1' 0,1 -1 x - ;;
        link) echo 10 -10 10.5 +10 1e1 9223372036854775808 x - ;;
        scales) echo 1 0.0009 10.001 0 -1 '1;' ';1' '1;;2' 1,2 1e2 x - ;;
    esac
}

# good_of OPTION: a value that is accepted.
good_of() {
    values_of "$1" | cut -d ' ' -f 1
}

# refuse_values OPTION WORDS..: an option behind words that take it: twice, with each value that
# isn't accepted, and without a value.
refuse_values() {
    option=$1
    shift
    good=$(good_of "$option")
    usage "$@" "--$option" "$good" "--$option=$good"
    for value in $(values_of "$option" | cut -d ' ' -f 2-); do
        [ "$value" != - ] || value=
        usage "$@" "--$option" "$value"
    done
    usage "$@" "--$option="
    usage "$@" "--$option"
    usage "$@" "--$option" "$good" "$good"
    usage "$@" "--$option=$good "
}

# refuse_flag OPTION WORDS..: a flag behind words that take it: twice, and with a value.
refuse_flag() {
    option=$1
    shift
    usage "$@" "--$option" "--$option"
    usage "$@" "--$option="
    usage "$@" "--$option=yes"
    usage "$@" "--$option" yes
}

# refuse_options WORDS..: what is refused of each option behind words of a command.
refuse_options() {
    command=$1
    for option in $assigning watch plain start at link scales; do
        case $option:" $(options_of "$command") " in
            plain:*' plain '* | start:*' start '*) refuse_flag "$option" "$@" ;;
            plain:* | start:*) usage "$@" "--$option" ;;
            scales:*' scales '*) refuse_values scales sweep ;;
            *" $option "*) refuse_values "$option" "$@" ;;
            *) usage "$@" "--$option" "$(good_of "$option")" ;;
        esac
    done
}
refuse_options freeflow
refuse_options assign
refuse_options demo 2
refuse_options skim
refuse_options counts
refuse_options sweep --scales 1
refuse_options audit

# Words that are none of a command's.
usage
for words in '' - -- --help -h --version help Assign assig 'assign ' ' assign' --step; do
    usage "$words"
done
for words in -- --help -h --version help 1 assign step --s=6 --ste=6 --steps=6 --Step=6 -step=6 \
    -s6 ---step=6 'step=6' '' ' --step=6' '--step =6'; do
    usage assign "$words"
done
usage assign -- --step 6
usage assign --step
usage assign --horizon 60 --period 61
usage assign --period 61 --horizon=60
usage skim --horizon 60 --at 60
usage skim --at '0; 1'
usage skim --at "0$(printf ';0%.0s' $(seq 64))"
usage counts --link ' 10'
usage sweep
usage sweep --scales '1; 2'
usage sweep --scales "1$(printf ';1%.0s' $(seq 16))"
usage demo
usage demo --step 6
for words in 1 61 0 -2 +2 2.0 x '' ' 2' 0000000002 '2 ' --; do usage demo "$words"; done
usage demo 2 2
usage demo -- 2

# What each option changes, at its least and its most where these are quick.
done_with 10,10,125 freeflow
done_with 10,60,125 freeflow --step 1
done_with 10,1,125 freeflow --step=60
done_with 10,5,125 freeflow --step 000000012
done_with 10,10,1 freeflow --jam 1
done_with 10,10,1000 freeflow --jam 1000
done_with 10,10,125 freeflow --length-unit m --speed-unit kmh
done_with 10,10000,125000 freeflow --length-unit km
change link 's/,1000,/,1,/'; done_with 10,17,201 freeflow --length-unit mi
done_with 10,7,125 freeflow --speed-unit mph
done_with 10,1243,150000 freeflow --speed-unit=mph --length-unit=km --jam=150 --step=30

done_with '0,1,3,100,120,arrived,10;20,100;110' assign
done_with '0,1,3,100,110,arrived,10;20,100;105' assign --step 12
done_with '2,1,3,0,22,arrived,10;20,2;12' assign --period 1 --jam 1 --queue point
done_with '2,1,3,0,42,arrived,10;20,22;32' assign --period 1 --jam 1 --queue spatial
done_with '2,1,3,0,22,arrived,10;20,2;12' assign --period 1 --jam 1000 --queue spatial
done_with '2,1,3,0,100,arrived,10;20,80;90' assign --period 1 --jam 1 --queue newell
done_with '2,1,3,0,60,arrived,10;20,40;50' assign --period 1 --jam 1 --queue newell --wave 60
done_with '2,1,3,0,22,arrived,10;20,2;12' assign --period 1 --wave 1
done_with '0,1,3,100,,running,10;20,100' assign --length-unit km
change link 's/,1000,/,1,/'
done_with '0,1,3,100,134,arrived,10;20,100;117' assign --length-unit mi
done_with '0,1,3,100,114,arrived,10;20,100;107' assign --speed-unit mph
done_with '2,1,3,50,,running,10;20,50' assign --horizon 60
done_with '1,1,3,0,,waiting,10;20,' assign --horizon 1
done_with 20,86350,86400,0,10,10 assign --horizon 86400
done_with '2,1,3,250,270,arrived,10;20,250;260' assign --period 300
done_with '2,1,3,1000,1020,arrived,10;20,1000;1010' assign --period 1200
done_with 'iterations 1000' assign --iterations 1000 --horizon 60
done_with 'arrived 3' assign --workers 1
done_with 'arrived 3' assign --workers 16
done_with 10,100,101,1,10,10 assign --bucket 1
done_with 10,0,1200,3,10,10 assign --bucket 86400
done_with 1,1200,0,0,3,0,0,0,0 assign --watch 86400
done_with 1,1200,0,0,3,0,0,0,0 assign --watch 1 --plain
done_with 'arrived 3' assign --watch 0
done_with 'arrived 3' assign --plain
done_with '2,1,3,500,520,arrived,10;20,500;510,0' assign --start
# Three depart in step 0, and enter the first link in steps 0, 1 and 2.
done_with 10,0,50,3,1 assign --period 1 --costs trips
done_with 10,0,50,1,0 assign --period=150 --costs=trips --iterations 3
done_with 1,60,60,0,0 assign --period 1 --costs links
done_with 1,63,63,0,0 assign --period 1 --costs trips --iterations 2

# In one step each of the eight links of the grid of two takes in one vehicle, or 15 in a minute.
done_with 'nodes 4' demo 000000002
done_with 'nodes 3600' demo 60 --horizon 1
done_with 'running 8' demo 2 --horizon 1
done_with 'running 120' demo --step 60 2 --horizon 1
done_with 'running 8' demo 2 --horizon 1 --step 60 --jam 1 --queue spatial
done_with 'running 8' demo 2 --horizon 1 --step 60 --jam 1 --queue newell --wave 100
done_with 'running 24' demo 2 --horizon 2 --period 1
done_with 'iterations 2' demo 2 --horizon 1 --iterations 2
done_with 'waiting 592' demo --horizon 1 --workers 16 2
done_with 'waiting 592' demo --plain 2 --horizon 1
done_with 'least_steps 3100' demo 2 --horizon 1 --bucket 86400
done_with 1,1,592,8,0,1,1,1,1 demo 2 --horizon 1 --watch 86400
done_with 'waiting 592' demo 2 --horizon 1 --costs links
done_with 'waiting 592' demo 2 --costs=trips --horizon 1

done_with 1,3,0,20 skim --horizon 60
change times 's/,10,10$/,5,5/'; done_with 1,3,0,10 skim --horizon 60 --step 12
done_with 1,3,0,20 skim --horizon 60 --jam 1000
change link 's/,1000,/,1,/'; done_with 1,3,0,20 skim --horizon 60 --length-unit km
change times 's/,10,10$/,7,7/'; done_with 1,3,0,14 skim --horizon 60 --speed-unit mph
change times '/,50,60,/d; s/,0,50,/,0,60,/'; done_with 1,3,0,20 skim --horizon 60 --bucket 60
change times 's/,60,0,10,/,60,0,30,/'; done_with 1,3,59,40 skim --horizon 60 --at '0;59;00'
done_with 'entries 128' skim --horizon 60 --at "0$(printf ';0%.0s' $(seq 63))"

set -- counts --horizon 60 --bucket 1
done_with turn,10,20,20,21,1 "$@"
done_with turn,10,20,15,16,1 "$@" --period 30
done_with turn,10,20,15,16,1 "$@" --step 12
done_with turn,10,20,32,33,1 "$@" --period 1 --jam 1 --queue spatial
done_with turn,10,20,50,51,1 "$@" --period 1 --jam 1 --queue newell
done_with turn,10,20,30,31,1 "$@" --period 1 --jam 1 --queue newell --wave 60
change link 's/,1000,/,1,/'; done_with turn,10,20,20,21,1 "$@" --length-unit km
done_with turn,10,20,17,18,1 "$@" --speed-unit mph
done_with 'iterations 2' "$@" --iterations 2
done_with 'arrived 2' "$@" --workers 16
done_with 'arrived 2' "$@" --plain
done_with through,1,3,0,60,2 "$@" --link 020.0
done_with 'arrived 2' "$@" --link 99
done_with 'least_steps 60' "$@" --costs trips

set -- sweep --scales 1 --horizon 60
done_with '0,1,3,10,30,arrived,10;20,10;20' "$@"
done_with '0,1,3,5,25,arrived,10;20,5;15' "$@" --period 30
done_with '0,1,3,10,20,arrived,10;20,10;15' "$@" --step 12
done_with '2,1,3,0,42,arrived,10;20,22;32' "$@" --period 1 --jam 1 --queue spatial
done_with '1,1,3,0,,running,10;20,40;50' "$@" --period 1 --jam 1 --queue newell
done_with '2,1,3,0,,running,10;20,40;50' "$@" --period 1 --jam 1 --queue newell --wave 60
change link 's/,1000,/,1,/'
done_with '0,1,3,10,30,arrived,10;20,10;20' "$@" --length-unit km
done_with '0,1,3,10,24,arrived,10;20,10;17' "$@" --speed-unit mph
done_with 'iterations 2' "$@" --iterations 2
done_with 10,0,60,3,10,10 "$@" --bucket 60
done_with 'arrived 2' "$@" --workers 16
done_with '5,1,3,27,47,arrived,10;20,27;37' sweep --scales '0.001;2' --horizon 60 --period 30
done_with 10,0,50,2,0 "$@" --costs trips
done_with 'scenario 15 scale 10000' sweep --horizon 1 --scales "1$(printf ';10%.0s' $(seq 15))"

set -- audit --horizon 60 --period 30
done_with 'audit ok' "$@"
done_with 'audit ok' "$@" --jam 1000 --queue spatial
change link 's/,1000,/,1,/'; done_with 'audit ok' "$@" --length-unit km
change times '/,50,60,/d; s/,0,50,/,0,60,/'; done_with 'audit ok' "$@" --bucket 60
done_with 'audit ok' "$@" --queue newell --wave 1
change times 's/,10,10$/,5,5/'; ends 8 'audit: start line 2 arrival_step' "$@" --step 12
change times 's/,10,10$/,7,7/'; ends 8 'audit: start line 2 arrival_step' "$@" --speed-unit mph
ends 8 'audit: start line 3 arrival_step' "$@" --jam 1 --queue spatial
ends 8 'audit: start line 3 arrival_step' "$@" --jam 1 --queue newell --wave 100
ends 8 'audit: start line 2 departure_step' audit --horizon 60 --period 29
ends 3 'times line 3: E13 Disagrees to_step' audit --horizon 61 --period 30

end_cases
