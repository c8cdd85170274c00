#!/bin/sh
# summary.sh <sweep.txt: prints a line for each scenario of a sweep: its scale in thousandths, and
# of its report the vehicles, those that arrived, are running and are waiting, and the route steps.
echo scale,vehicles,arrived,running,waiting,route_steps
exec awk '
/^scenario / { line = $4 }
/^(vehicles|arrived|running|waiting|route_steps) / { line = line "," $2 }
/^route_steps / { print line }'
