#!/bin/sh
# ring.sh NODES STEP..: makes node.csv and link.csv of a ring of nodes in the current folder. Node k
# leads to the node STEP places after it round the ring, for each STEP. With s steps link
# s(k - 1) + i goes from node k by the i-th of them.
set -e
nodes=$1
shift
awk -v n="$nodes" 'BEGIN {
    print "node_id,zone_id"
    for (k = 1; k <= n; k++) print k "," (k % 100 == 1 ? k : "")
}' >node.csv
awk -v n="$nodes" -v steps="$*" 'BEGIN {
    print "link_id,from_node_id,to_node_id,length,lanes,free_speed,capacity"
    s = split(steps, step, " ")
    for (k = 1; k <= n; k++)
        for (i = 1; i <= s; i++)
            print s * (k - 1) + i "," k "," (k - 1 + step[i]) % n + 1 "," \
                200 + (37 * k + i) % 1800 ".5," 1 + k % 3 "," 30 + 10 * i ",900"
}' >link.csv
