#!/bin/sh
# cut_out.sh K <sweep.txt: writes the texts of scenario K of a sweep to agent.csv,
# link_performance.csv, origin_wait.csv where there is one, gap.csv and report.txt of this folder, as
# `dta assign` writes them over the scaled demand.
exec awk -v wanted="$1" '
/^scenario / { on = $2 == wanted; next }
/^agent_id,/ { file = "agent.csv" }
/^link_id,/ { file = $0 ~ /,departed,/ ? "origin_wait.csv" : "link_performance.csv" }
/^iteration,/ { file = "gap.csv" }
/^nodes / { file = "report.txt" }
on { print >file }'
