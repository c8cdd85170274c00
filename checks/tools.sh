#!/bin/sh
# tools.sh PROGRAM: tries the tools that make tables: files of each kind there and back, that the
# built program takes what they write, the same bytes each time, and refusals, each with its status,
# its sentence and no table. Prints each case that isn't as wanted, and how many are; ends with 0
# where all are. OMX files are tried where Debian's h5py is.
checks=$(dirname "$(readlink -f "$0")")
tools=$(realpath "$checks/../tools")
examples=$(realpath "$checks/../examples")
. "$checks/begin.sh"
cases=0

# case_of TEXT COMMAND..: a case, which the command says is as wanted.
case_of() {
    case_name=$1
    shift
    cases=$((cases + 1))
    "$@" || fails "$case_name"
}

# done_with TEXT TOOL WORDS..: a tool ends with 0 and prints these lines, joined by commas.
done_with() {
    wanted=$1
    shift
    tool=$1
    shift
    "$tools/$tool" "$@" >report 2>said
    status=$?
    case_of "$tool $*: wanted $wanted, got $status $(cat report said)" \
        [ "$status,$(paste -s -d , report)" = "0,$wanted" ]
}

# refused STATUS TEXT TOOL WORDS..: a tool ends so, says this in one line, and writes nothing.
refused() {
    wanted=$1
    text=$2
    tool=$3
    shift 3
    rm -rf out
    "$tools/$tool" "$@" >report 2>said
    status=$?
    case_of "$tool $*: wanted $wanted, $text; got $status, $(cat said)" is_refused
}

is_refused() {
    [ "$status" -eq "$wanted" ] && [ ! -s report ] && [ ! -e out ] &&
        [ "$(cat said)" = "$tool: $text" ]
}

# assigned FOLDER WORDS..: runs the program there, and prints what it reports.
assigned() {
    (cd "$1" && shift && "$program" assign "$@")
}

# ---- TNTP

# tntp FOLDER: makes the three files of a network and a demand whose lengths are in metres, with
# lengths in kilometres and a minute for each, and trips divided by 0.3.
make_tntp() {
    awk -F , -v folder="$1" 'BEGIN {
            while ((getline <(folder "/link.csv")) > 0) if ($1 + 0)
                line[++links] = sprintf("\t%s\t%s\t%.10g\t%.10g\t%.10g\t0.15\t4\t0\t0\t1\t;",
                    $2, $3, $6 * $8, $5 / 1000, $5 / 1000)
            while ((getline <(folder "/node.csv")) > 0) if ($1 + 0) nodes++
            printf "<NUMBER OF ZONES> %d\n<NUMBER OF NODES> %d\n<FIRST THRU NODE> 1\n", nodes, nodes
            printf "<NUMBER OF LINKS> %d\n<ORIGINAL HEADER>~\tInit node\t;\n", links
            print "<END OF METADATA>\n\n\n~\tInit node\tTerm node\tCapacity\tLength\t;"
            for (k = 1; k <= links; k++) print line[k]
        }' >net.tntp
    awk -F , '
        NR > 1 { volume[$1, $2] = $3 / 0.3; sum += $3 / 0.3; if ($1 > zones) zones = $1 }
        END {
            printf "<NUMBER OF ZONES> %d\n<TOTAL OD FLOW> %.1f\n<END OF METADATA>\n\n\n", zones, sum
            for (o = 1; o <= zones; o++) {
                printf "Origin \t%d \n", o
                for (d = 1; d <= zones; d++)
                    printf "%5d :%9.1f;%s", d, volume[o, d], d % 5 ? " " : "\n"
                print "\n"
            }
        }' "$1/demand.csv" >trips.tntp
    { printf 'Node\tX\tY\t;\n'
        awk -F , 'NR > 1 { printf "%s\t%s\t%s\t;\n", $1, $3, $4 }' "$1/node.csv"; } >node.tntp
}

# The lines of links that tables were made of, by the columns that keep their texts.
links_back() {
    awk -F , 'NR > 1 { printf "\t%s\t%s", $2, $3; for (k = 8; k <= 15; k++) printf "\t%s", $k
        print "\t;" }' "$1"
}

sioux_falls_there_and_back() {
    make_tntp "$examples/sioux_falls"
    done_with 'nodes 24,links 76,zones 24,rows 528,volume 108180' dta-from-tntp net.tntp \
        --trips trips.tntp --nodes node.tntp --scale 0.3 --lane-capacity 1900 --to tables
    case_of 'the demand of Sioux Falls' cmp tables/demand.csv "$examples/sioux_falls/demand.csv"
    cut -d , -f 1-4 tables/node.csv >nodes
    case_of 'the nodes of Sioux Falls' cmp nodes "$examples/sioux_falls/node.csv"
    links_back tables/link.csv >back
    grep '^	[0-9]' net.tntp | cmp -s - back
    case_of 'the links of Sioux Falls there and back' [ $? -eq 0 ]
    mkdir example && cp "$examples"/sioux_falls/*.csv example
    assigned example --iterations 5 >wanted && assigned tables --iterations 5 >got
    case_of 'the report of Sioux Falls' cmp wanted got
    case_of 'the journeys of Sioux Falls' cmp tables/agent.csv example/agent.csv
    PYTHONHASHSEED=7 "$tools/dta-from-tntp" net.tntp --trips trips.tntp --nodes node.tntp \
        --scale 0.3 --lane-capacity 1900 --to again >report 2>said
    for table in node link demand; do
        case_of "the same $table.csv twice" cmp "tables/$table.csv" "again/$table.csv"
    done
}

# Zones 1 and 2 may not be passed, and lie on the shortest way from 3 to 4.
zones_that_are_not_passed() {
    cat >closed.tntp <<'NET'
<NUMBER OF ZONES> 4
<NUMBER OF NODES> 5
<FIRST THRU NODE> 3
<NUMBER OF LINKS> 6
<END OF METADATA>
~ a comment
3 1 999999 0 0 ;
1 4 999999 1 0 ;
3 5 1800 2 2 0.15 4 0 0 1 ;
5 4 3600.5 0 2 0.15 4 0 0 1 ; ~ and another
5 2 1e6 1 1 ;
2 5 1E6 1 1 ;
NET
    printf '%s\n' '<NUMBER OF ZONES> 4' '<END OF METADATA>' 'Origin 3' '4 : 6; 1 : 6;' 'Origin 1' \
        '4:6; 1 : 2.5;' >closed_trips.tntp
    done_with 'nodes 7,links 6,zones 4,rows 4,volume 20.5' dta-from-tntp closed.tntp \
        --trips closed_trips.tntp --to closed
    sed 's/^dta-from-tntp: //' said >notes
    cat >wanted <<'NOTES'
zones that may not be passed, whose links lead to nodes 6 to 7: 2.
links without a free-flow time, which take a step: 2.
links with a time and no length, which have that of 50 km/h: 1.
links that would need more than 100 lanes, and have 100 of more capacity: 4.
capacities of links are changed by 0.001 vehicles an hour at most: those of lanes are thousandths.
free speeds go from 60 to 60 km/h, the middle one is 60.
rows within a zone, of which dta makes nothing: 1.
NOTES
    case_of "the notes: $(diff wanted notes)" cmp -s wanted notes
    assigned closed >report
    case_of 'all vehicles arrive' grep -qx 'arrived 18' report
    case_of 'no route leads through a zone' sh -c '! grep -q "1;2" closed/agent.csv'
    case_of 'routes begin and end in zones' grep -q '^[0-9]*,1,4,.*,2,' closed/agent.csv
}

# bad_net CHANGE TEXT: a network file that is changed by sed is refused.
bad_net() {
    sed "$1" net.tntp >bad.tntp
    refused 3 "bad.tntp$2" dta-from-tntp bad.tntp --to out
}

bad_trips() {
    sed "$1" trips.tntp >bad.tntp
    refused 3 "bad.tntp$2" dta-from-tntp net.tntp --trips bad.tntp --to out
}

bad_nodes() {
    sed "$1" node.tntp >bad.tntp
    refused 3 "bad.tntp$2" dta-from-tntp net.tntp --nodes bad.tntp --to out
}

bad_tntp() {
    bad_net '6d' ' line 9 column 1: this is no metadata, and <END OF METADATA> is missing.'
    bad_net '6,$d' ' line 5: <END OF METADATA> is missing.'
    bad_net '2d' ' line 5: the metadata above have no <NUMBER OF NODES>.'
    bad_net '2s/24/many/' " line 2 column 18: 'many' is no NUMBER OF NODES: it has digits alone."
    bad_net '2s/24//' ' line 2 column 18: NUMBER OF NODES is missing.'
    bad_net '2s/24/99999999999999999999/' \
        " line 2 column 18: '99999999999999999999' is too large for NUMBER OF NODES."
    bad_net '4s/76/75/' ': <NUMBER OF LINKS> is 75, and 76 follow.'
    bad_net '1s/24/25/' \
        ': 25 zones, 24 nodes and 76 links: zones are nodes, and at most 1,000,000 of each.'
    bad_net '10s/;//' " line 10 column 31: the line doesn't end with a semicolon."
    bad_net '10s/.*/\t1\t2\t3\t4\t;/' \
        ' line 10 column 1: a link has 5 to 10 fields and then a semicolon; this line has 4.'
    bad_net '10s/;/7\t;/' \
        ' line 10 column 1: a link has 5 to 10 fields and then a semicolon; this line has 11.'
    bad_net '10s/\t1\t/\t25\t/' ' line 10 column 2: init node is 25; the nodes go from 1 to 24.'
    bad_net '10s/\t2\t/\t0\t/' ' line 10 column 4: term node is 0; the nodes go from 1 to 24.'
    bad_net '10s/25900.196/25900,196/' \
        " line 10 column 6: '25900,196' is no number for capacity. Write a decimal point."
    bad_net '10s/25900.196/-1/' ' line 10 column 6: capacity is -1, below 0.'
    bad_net '10s/25900.196/1e10/' ' line 10 column 6: capacity is 1e10, above 1,000,000,000.'
    bad_net '10s/\t6\t/\tlong\t/' " line 10 column 16: 'long' is no number for length."
    bad_net '10s/\t6\t6/\t9e8\t6/' \
        " line 10 column 16: this length and this time make a link that dta doesn't take."
    { cat net.tntp; printf '~ \377\n'; } >bad.tntp
    refused 3 "bad.tntp line 86 column 3: this byte isn't UTF-8. Save the file as UTF-8." \
        dta-from-tntp bad.tntp --to out
    refused 4 "none.tntp can't be read: No such file or directory." dta-from-tntp none.tntp --to out
    refused 4 "tables can't be read: Is a directory." dta-from-tntp tables --to out
    bad_trips '6d' ' line 6 column 5: the first line behind the metadata should be an Origin.'
    bad_trips '7s/:/ /' " line 7 column 14: ':' should stand here, behind a destination."
    bad_trips '7s/;/ /' " line 7 column 23: ';' should stand here, behind a volume."
    bad_trips '7s/ 2 :/25 :/' ' line 7 column 22: destination is 25; the nodes go from 1 to 24.'
    bad_trips '7s/ 2 :/ 1 :/' ' line 7 column 23: there is a volume from 1 to 1 above.'
    bad_trips '7s/100.0/1OO.0/' " line 7 column 30: '1OO.0' is no number for volume."
    bad_trips '7s/100.0/ -1.0/' ' line 7 column 31: volume is -1.0, below 0.'
    bad_trips '1s/24/23/' ': <NUMBER OF ZONES> is 23, and 24 in the network.'
    bad_trips '8,$d; 7s/;.*/; 2 :/' ' line 7: the file ends where a volume should follow.'
    bad_nodes '2s/50000//' \
        ' line 2 column 1: a node has a number and two coordinates; this line has 2 fields.'
    bad_nodes '2s/50000/east/' " line 2 column 3: 'east' is no coordinate."
    bad_nodes '3s/^2/1/' ' line 3 column 1: node 1 has a line above.'
    bad_nodes '3s/^2/99/' ' line 3 column 1: node is 99; the nodes go from 1 to 24.'
}

bad_words() {
    shows='dta-from-tntp --help shows the words.'
    refused 2 "the following arguments are required: net. $shows" dta-from-tntp --to out
    refused 2 \
        "argument --length-unit: invalid choice: 'yd' (choose from 'm', 'km', 'mi', 'ft'). $shows" \
        dta-from-tntp net.tntp --length-unit yd --to out
    refused 2 "argument --lane-capacity: it goes from 1 to 100000. $shows" dta-from-tntp net.tntp \
        --lane-capacity 0 --to out
    refused 2 "argument --scale: 'x' is no number for --scale. $shows" dta-from-tntp net.tntp \
        --scale x --to out
    refused 2 "unrecognized arguments: --lanes 2. $shows" dta-from-tntp net.tntp --lanes 2 --to out
    refused 5 'tables/node.csv is there already. With --replace it is written over.' dta-from-tntp \
        net.tntp --to tables
    refused 5 "net.tntp can't be written: File exists." dta-from-tntp net.tntp --to net.tntp \
        --replace
    done_with 'nodes 24,links 76,zones 24' dta-from-tntp net.tntp --to tables --replace
}

# ---- matrices

matrices_there_and_back() {
    printf 'zone,7, 8 ,9.0\n7,0,1.5,2e1\n9,.125,0.0004,0.0006\n\n"8",5,6,7\n' >matrix.csv
    done_with 'zones 3,rows 8,volume 39.626,period 1200' dta-from-matrix matrix.csv --hours 2
    case_of 'what is within zones is told' grep -q 'nothing: 6.001.$' said
    printf '%s\n' o_zone_id,d_zone_id,volume 7,8,1.5 7,9,20 9,7,0.125 9,8,0 9,9,0.001 8,7,5 8,8,6 \
        8,9,7 >wanted
    case_of "the rows of a matrix: $(diff wanted demand.csv)" cmp -s wanted demand.csv
    # Sioux Falls as a matrix with semicolons.
    awk -F , 'NR > 1 { v[$1, $2] = $3; if ($1 > n) n = $1 } END {
        for (d = 1; d <= n; d++) printf ";%d", d; print ""
        for (o = 1; o <= n; o++) { printf "%d", o
            for (d = 1; d <= n; d++) printf ";%s", v[o, d]; print "" } }' \
        "$examples/sioux_falls/demand.csv" >semicolons.csv
    done_with 'zones 24,rows 528,volume 108180,period 360' dta-from-matrix semicolons.csv \
        --replace --separator semicolon --empty-is-zero --step 10
    case_of 'Sioux Falls there and back' cmp demand.csv "$examples/sioux_falls/demand.csv"
    rm demand.csv
}

# bad_matrix TEXT SENTENCE WORDS..: a matrix with this text is refused.
bad_matrix() {
    printf "$1" >bad.csv
    sentence=$2
    shift 2
    refused 3 "bad.csv$sentence" dta-from-matrix bad.csv --to out "$@"
}

bad_matrices() {
    bad_matrix '' ' line 1: the first row has no zones.'
    bad_matrix ';1;2\n1;2;3\n' ' line 1: the first row has no zones; is --separator right?'
    bad_matrix ',1,2\n1,0\n' ' line 2: the row has 2 fields, and the first row has 3.'
    bad_matrix ',1,1\n' ' line 1 column 3: destination 1 stands here a second time.'
    bad_matrix ',1,2\n1,0,0\n\n1.0,0,0\n' ' line 4 column 1: origin 1 stands here a second time.'
    bad_matrix ',1,north\n' " line 1 column 3: 'north' is no destination: it has digits alone."
    bad_matrix ',1,2\n,0,0\n' ' line 2 column 1: origin is missing.'
    bad_matrix ',1,2\n1,,0\n' ' line 2 column 2: a volume is missing.'
    bad_matrix ',1,2\n1,0,x\n' " line 2 column 3: 'x' is no number for a volume." --empty-is-zero
    bad_matrix ',1,2\n1,0,nan\n' " line 2 column 3: 'nan' is no number for a volume."
    bad_matrix ',1,2\n1,0,-3\n' ' line 2 column 3: a volume is -3, below 0.'
    bad_matrix ',1,2\n1,0,"1,5"\n' \
        " line 2 column 3: '1,5' is no number for a volume. Write a decimal point."
    bad_matrix ',1,2\n1,0,"1\n' \
        " line 2: a quote that begins here isn't closed, or has text behind it."
    printf ',1,2\n1,0,5\n' >bad.csv
    refused 2 '--table and --lookup are for OMX files, and bad.csv is none.' dta-from-matrix \
        bad.csv --table am --to out
    refused 2 '0.001 hours are 0.6 steps of 6 seconds; a period is 1 to 86400 whole steps.' \
        dta-from-matrix bad.csv --hours 0.001 --to out
}

# ---- OMX

make_omx() {
    /usr/bin/python3 - <<'OMX'
import h5py
import numpy
with h5py.File("three.omx", "w") as file:
    file.attrs["OMX_VERSION"], file.attrs["SHAPE"] = b"0.2", numpy.array([3, 3])
    tables = {"am": numpy.array([[0, 10.5, 20], [1, 0, 2.25], [0.1, 0.3, 5]], dtype="f4"),
              "pm": numpy.arange(9.0).reshape(3, 3), "walk": numpy.eye(3, dtype="i8")}
    for name, table in tables.items():
        file.create_dataset("data/" + name, data=table, chunks=True, compression="gzip")
    file["lookup/taz"] = numpy.array([101, 205, 307])
with h5py.File("bad.omx", "w") as file:
    file["data/nan"] = numpy.array([[0, float("nan")], [1, 2]])
    file["data/small"] = numpy.array([[0, 1], [-1, 2]])
    file["data/flat"], file["data/wide"] = numpy.zeros(2), numpy.zeros((2, 3))
    file["data/large"] = numpy.zeros((3, 3))
    file["lookup/same"], file["lookup/short"] = numpy.array([4, 4]), numpy.array([1])
    file["lookup/names"] = numpy.array([b"north", b"south"])
with h5py.File("plain.omx", "w") as file:
    file["data/all"] = numpy.array([[0, 3], [0.5, 0]])
    file["data/nan"], file["data/minus"] = [[0, float("nan")], [1, 2]], [[0, 1], [-1, 2]]
with h5py.File("none.omx", "w") as file:
    file["other"] = numpy.zeros(2)
OMX
    head -c 900 three.omx >cut.omx
}

bad_omx() {
    sentence=$1
    shift
    refused 3 "bad.omx$sentence" dta-from-matrix bad.omx --to out "$@"
}

omx_files() {
    /usr/bin/python3 -c 'import h5py' 2>said || { echo 'not tried: there is no h5py'; return; }
    make_omx
    done_with 'zones 3,rows 7,volume 39.15,period 600' dta-from-matrix three.omx --table am --to omx
    printf '%s\n' o_zone_id,d_zone_id,volume 101,205,10.5 101,307,20 205,101,1 205,307,2.25 \
        307,101,0.1 307,205,0.3 307,307,5 >wanted
    case_of 'the rows of a table' cmp wanted omx/demand.csv
    done_with 'zones 3,rows 9,volume 78.15,period 600' dta-from-matrix three.omx --table am \
        --table pm --table walk --lookup taz --to three
    case_of 'three tables are added up' grep -qx 307,307,14 three/demand.csv
    done_with 'zones 2,rows 2,volume 3.5,period 600' dta-from-matrix plain.omx \
        --table all --to plain
    case_of 'zones without a lookup' grep -qx 2,1,0.5 plain/demand.csv
    refused 3 'three.omx: name a table by --table. It has: am, pm, walk.' dta-from-matrix \
        three.omx --to out
    refused 3 "three.omx: there is no table 'AM'. It has: am, pm, walk." dta-from-matrix three.omx \
        --table AM --to out
    refused 2 '--table is given twice for one name.' dta-from-matrix three.omx --table am --table \
        am --to out
    bad_omx ': name a lookup by --lookup. It has: names, same, short.' --table nan
    bad_omx ' lookup same row 2: zone 4 stands here a second time.' --table small --lookup same
    bad_omx ' lookup short: its shape is (1,), and the tables have 2 rows.' --table nan --lookup \
        short
    bad_omx " lookup names row 1: 'north' is no zone: it has digits alone." --table nan --lookup \
        names
    bad_omx " table flat: it isn't square and of numbers: its shape is (2,), its type float64." \
        --table flat
    bad_omx " table wide: it isn't square and of numbers: its shape is (2, 3), its type float64." \
        --table wide
    bad_omx ' table large: its shape is (3, 3), and that of nan is (2, 2).' --table nan --table \
        large
    refused 3 "plain.omx table nan row 1 column 2: 'nan' is no number for a volume." \
        dta-from-matrix plain.omx --table nan --to out
    refused 3 'plain.omx table minus row 2 column 1: a volume is -1, below 0.' dta-from-matrix \
        plain.omx --table minus --to out
    refused 3 'none.omx: there is no table.' dta-from-matrix none.omx --to out
    refused 4 "cut.omx can't be read: it is cut off, or no OMX file." dta-from-matrix cut.omx --to \
        out
    mkdir without && echo 'raise ImportError' >without/h5py.py
    PYTHONPATH=without
    export PYTHONPATH
    refused 4 "three.omx is an OMX file, and h5py isn't there to read it. Debian has it as \
python3-h5py." dta-from-matrix three.omx --to out
    unset PYTHONPATH
}

# ---- connectors

# steps FOLDER: how many steps all trips of a run take from departure to arrival.
steps() {
    awk -F , 'NR > 1 { sum += $5 - $4 } END { print sum }' "$1/agent.csv"
}

# connected EXAMPLE REPORT WORDS..: an example with connectors, in a folder of its own.
connected() {
    rm -rf "$folder/case" && mkdir "$folder/case" && cp "$examples/$1"/*.csv "$folder/case" &&
        cd "$folder/case" || exit 2
    example=$1
    wanted=$2
    shift 2
    done_with "$wanted" dta-connectors --to with
    assigned . "$@" >plain && assigned with "$@" >report
    case_of "$example, all vehicles of it" [ "$(sed -n '3,4p' plain)" = "$(sed -n '3,4p' report)" ]
}

connectors() {
    # Where nobody waits each trip takes two steps more, and goes over the same links.
    connected two_links 'zones 2,connectors 3,turns 0'
    case_of 'two steps more a trip' [ "$(steps with)" -eq $(($(steps .) + 2 * 3)) ]
    connected turns 'zones 5,connectors 9,turns 4' --period 20 --horizon 80
    cut -d , -f 7 agent.csv | sort >plain
    cut -d , -f 7 with/agent.csv | sed 's/^[0-9]*;\(.*\);[0-9]*$/\1/' | sort >taken_out
    case_of 'turns, the same links' cmp plain taken_out
    case_of 'what is added is named' grep -q '^10[0-9],.*,entry of zone 1$' with/link.csv
    case_of 'all else stays' sh -c 'cut -d , -f 1-7 with/link.csv | head -n 5 |
        diff - link.csv && diff demand.csv with/demand.csv'
    # Where they wait at the origin, they wait on connectors.
    connected sioux_falls 'zones 24,connectors 100,turns 406' --iterations 20
    for run in . with; do
        awk -F , 'NR > 1 { split($8, step, ";"); wait += step[1] - $4 } END { print wait }' \
            "$run/agent.csv"
    done | paste -s -d , >waits
    case_of "waits at origins: $(cat waits)" grep -q '^[0-9][0-9]*,0$' waits
    case_of 'routes avoid waits' [ "$(steps with)" -lt "$(steps .)" ]
    PYTHONHASHSEED=7 "$tools/dta-connectors" --to again >report
    for table in node link movement connectors; do
        case_of "the same $table.csv twice" cmp "with/$table.csv" "again/$table.csv"
    done
    rm -rf again
    (cd with && "$program" freeflow >report && sed -n 's/^101,//p' link_performance.csv) >free
    case_of 'a connector takes a step and holds all' grep -qx 1,2000000 free
    connected roundabout 'zones 4,connectors 8,turns 0' --queue spatial
    connected osm_columns 'zones 3,connectors 6,turns 0' --queue newell
}

# bad_network TABLE CHANGE SENTENCE: the table, changed by sed, is refused.
bad_network() {
    cp "$1.csv" kept
    sed "$2" kept >"$1.csv"
    refused 3 "$1.csv$3" dta-connectors --to out
    mv kept "$1.csv"
}

bad_networks() {
    connected turns 'zones 5,connectors 9,turns 4' --period 20 --horizon 60
    bad_network node '1s/zone_id/zone/' ' line 1: there is no column zone_id.'
    bad_network node '1,$d' ' line 1: the file is empty.'
    bad_network node '3s/^2/1/' ' line 3 column node_id: node 1 has a row above.'
    bad_network node '3s/^2/two/' \
        " line 3 column node_id: 'two' is no node_id: it has digits alone."
    bad_network node '3s/,2/,-2/' \
        ' line 3 column zone_id: zone_id is -2, below 0; -1 and 0 mean no zone.'
    bad_network node '3s/$/,/' ' line 3: the row has 3 fields, and the header has 2.'
    bad_network node '2,$s/,.*/,/' ': no node has a zone.'
    bad_network link '3s/,2,/,99,/' ' line 3 column from_node_id: there is no node 99 in node.csv.'
    bad_network link '3s/^23/13/' ' line 3 column link_id: link 13 has a row above.'
    bad_network link '1s/length/long/' ' line 1: there is no column length.'
    bad_network link '1s/lanes/added/' \
        ' line 1 column added: there is such a column already. Were connectors added before?'
    bad_network movement '2s/34/35/; 2s/^3/9/' \
        ' line 2 column node_id: there is no node 9 in node.csv.'
    bad_network movement '2p' \
        ' line 3 column ob_link_id: this turn from 13 to 34 has a row above.'
    bad_network movement '2s/,13,/,34,/' " line 2 column ib_link_id: link 34 isn't one of node 3."
    refused 2 '--to has to be another folder than this one, whose tables stay.' dta-connectors
    refused 2 \
        'argument --holds: it goes from 1 to 4000000. dta-connectors --help shows the words.' \
        dta-connectors --holds 0 --to out
    refused 5 'with/node.csv is there already. With --replace it is written over.' dta-connectors \
        --to with
    mkdir empty && cd empty || exit 2
    refused 4 "node.csv can't be read: No such file or directory." dta-connectors --to out
    cd "$folder" || exit 2
}

# ---- words that are told

told() {
    for tool in dta-from-tntp dta-from-matrix dta-connectors; do
        "$tools/$tool" --help >help
        case_of "$tool --help" grep -q "^$tool: " help
        case_of "$tool --help, short lines" sh -c '! grep -q ".\{101\}" help'
        LC_ALL=C awk -f "$checks/../command/tool_man.awk" -- help 1 today >page
        for option in $(sed -n 's/^  \(--[a-z-]*\) .*/\1/p' help); do
            case_of "$tool: $option in the manual" \
                sh -c "sed 's/[\\]-/-/g' page | grep -q -- '^.B $option'"
        done
    done
}

sioux_falls_there_and_back
zones_that_are_not_passed
bad_tntp
bad_words
matrices_there_and_back
bad_matrices
omx_files
connectors
bad_networks
told
echo "$((cases - failures)) of $cases cases are as wanted"
exit "$((failures > 0))"
