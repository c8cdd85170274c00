#!/bin/sh
# two_links.sh VEHICLES [LENGTH]: makes node.csv, link.csv and demand.csv of two links in a line in
# the current folder, over which so many vehicles go. Each link has this length, or 1000.
set -e
printf 'node_id,zone_id\n1,1\n2,\n3,3\n' >node.csv
printf 'link_id,from_node_id,to_node_id,length,lanes,free_speed,capacity\n' >link.csv
printf '%s,1,60,600\n' "10,1,2,${2:-1000}" "20,2,3,${2:-1000}" >>link.csv
printf 'o_zone_id,d_zone_id,volume\n1,3,%s\n' "$1" >demand.csv
