#!/bin/sh
# grid.sh SIDE [ZONES VEHICLES]: makes node.csv, link.csv and demand.csv of a grid of nodes in the
# current folder, as grid_maker makes them, of any size. From each node a link of 200 to 280 metres
# leads to each of its neighbours, each corner is a zone, and 25 vehicles for each row of the grid
# go from each zone to each other zone. With ZONES so many nodes all over the grid are zones
# instead, and about VEHICLES vehicles go between them.
set -e
side=$1
zones=${2:-4}
vehicles=${3:-$((25 * side * 12))}
awk -v n="$side" -v zones="$zones" 'BEGIN {
    print "node_id,zone_id"
    if (zones == 4) {
        zone[0] = 1
        zone[n - 1] = 2
        zone[n * (n - 1)] = 3
        zone[n * n - 1] = 4
    } else for (z = 1; z <= zones; z++) zone[z * 7919 % (n * n)] = z
    for (k = 0; k < n * n; k++) print k + 1 "," zone[k]
}' >node.csv
awk -v n="$side" 'function add(direction, to) {
    length_ = 200 + 10 * ((7 * r + 3 * c + direction) % 9)
    print ++links "," r * n + c + 1 "," to + 1 "," length_ ",1,40,900"
}
BEGIN {
    print "link_id,from_node_id,to_node_id,length,lanes,free_speed,capacity"
    for (r = 0; r < n; r++) for (c = 0; c < n; c++) {
        if (c + 1 < n) add(0, r * n + c + 1)
        if (r + 1 < n) add(1, r * n + c + n)
        if (c > 0) add(2, r * n + c - 1)
        if (r > 0) add(3, r * n + c - n)
    }
}' >link.csv
awk -v zones="$zones" -v vehicles="$vehicles" 'BEGIN {
    print "o_zone_id,d_zone_id,volume"
    volume = vehicles / (zones * (zones - 1))
    for (o = 1; o <= zones; o++) for (d = 1; d <= zones; d++)
        if (o != d) printf "%d,%d,%.6g\n", o, d, volume
}' >demand.csv
