#!/bin/sh
# hub.sh KIND: makes node.csv, link.csv and demand.csv of one large node in the current folder, for
# `listed` also movement.csv. Kinds are
#
#   star     a hub with a link from and to each of 5,000 ends; each sends 4 vehicles to 2 of 60 ends
#   jam      such a hub, from which all vehicles go on to 4 ends, whose links are slow and full, so
#            that on nearly all of the 4,996 other links into the hub a vehicle waits
#   turns    1,000 links into a node and 1,000 out of it; 48 vehicles go from each on to 16 of 200
#   listed   the same node, with 4 vehicles from each link on to 4; each of the 1,000,000 turns has
#            a row in movement.csv, a third of them take 1 to 10 seconds, a fourth have a capacity
#   zone     50,000 links into a node; 40,000 of them begin in one zone, from which 100,000 vehicles
#            go to that node
#   halves   a hub with a link from and to each of 50,000 ends; each half of the ends is one zone,
#            and 10,000 vehicles go from one to the other

# star ENDS: a hub, node 0, and a link from and to each end. End k is in zone k. Link k begins
# there, and link ENDS + k leads there.
star() {
    awk -v n="$1" 'BEGIN {
        print "node_id,zone_id\n0," >"node.csv"
        for (k = 1; k <= n; k++) print k "," k >"node.csv"
        print "link_id,from_node_id,to_node_id,length,lanes,free_speed,capacity" >"link.csv"
        for (k = 1; k <= n; k++) print k "," k ",0," 200 + 37 * k % 800 ",1,50,1800" >"link.csv"
        for (k = 1; k <= n; k++) print n + k ",0," k "," 200 + 53 * k % 800 ",1,50,1800" >"link.csv"
    }'
}

# node_of LINKS: so many links into node 0, and as many out of it. Link k begins in zone k, or ends
# there.
node_of() {
    awk -v n="$1" 'BEGIN {
        print "node_id,zone_id\n0," >"node.csv"
        for (k = 1; k <= 2 * n; k++) print k "," k >"node.csv"
        print "link_id,from_node_id,to_node_id,length,lanes,free_speed,capacity" >"link.csv"
        for (k = 1; k <= 2 * n; k++) {
            ends = k <= n ? k ",0," : "0," k ","
            print k "," ends 200 + 37 * k % 800 ",1,50,1800" >"link.csv"
        }
    }'
}

# trips FIRST LAST TO COUNT STRIDE EACH VOLUME: so many vehicles from each of the zones FIRST to
# LAST to each of EACH zones, which are among the COUNT zones TO, TO + STRIDE and so on.
trips() {
    awk -v first="$1" -v last="$2" -v to="$3" -v count="$4" -v stride="$5" -v each="$6" \
        -v volume="$7" 'BEGIN {
        print "o_zone_id,d_zone_id,volume"
        for (o = first; o <= last; o++) for (j = 0; j < each; j++) {
            d = to + stride * ((o + 7 * j) % count)
            if (d != o) print o "," d "," volume
        }
    }' >demand.csv
}

# list_turns LINKS: a row for each turn of such a node.
list_turns() {
    awk -v n="$1" 'BEGIN {
        print "node_id,ib_link_id,ob_link_id,penalty,capacity"
        for (k = 1; k <= n; k++) for (j = n + 1; j <= 2 * n; j++) {
            turn = 31 * k + j
            print "0," k "," j "," (turn % 3 ? "" : turn % 10 + 1) "," (turn % 4 ? "" : 300)
        }
    }' >movement.csv
}

case ${1:-} in
    star)
        star 5000
        trips 1 5000 1 60 83 2 2
        ;;
    jam)
        star 5000
        awk -F , -v OFS=, '$1 > 5000 && $3 <= 4 { $4 = 20; $7 = 60 } { print }' link.csv >slow
        mv slow link.csv
        trips 5 5000 1 4 1 4 1
        ;;
    turns)
        node_of 1000
        trips 1 1000 1001 200 5 16 3
        ;;
    listed)
        node_of 1000
        trips 1 1000 1001 4 200 4 1
        list_turns 1000
        ;;
    zone)
        awk 'BEGIN {
            print "node_id,zone_id\n0,2" >"node.csv"
            print "link_id,from_node_id,to_node_id,length" >"link.csv"
            for (k = 1; k <= 50000; k++) {
                print k "," (k <= 40000 ? 1 : "") >"node.csv"
                print k "," k ",0,50" >"link.csv"
            }
        }'
        trips 1 1 2 1 1 1 100000
        ;;
    halves)
        star 50000
        awk -F , -v OFS=, 'NR > 2 { $2 = $1 <= 25000 ? 1 : 2 } { print }' node.csv >two
        mv two node.csv
        trips 1 1 2 1 1 1 10000
        ;;
    *) echo 'usage: hub.sh star|jam|turns|listed|zone|halves' >&2; exit 2 ;;
esac
