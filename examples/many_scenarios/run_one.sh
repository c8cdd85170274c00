#!/bin/sh
# run_one.sh PROGRAM FOLDER: runs the program in the folder of a scenario, with the words in the
# first line of words.txt there. Report goes to report.txt, the exit status to status.txt, and the
# name of the machine (or of the node of Slurm) to machine.txt. Ends with the status of the program.
[ $# -eq 2 ] || { echo 'usage: run_one.sh PROGRAM FOLDER' >&2; exit 2; }
program=$(readlink -f "$1")
cd "$2" || exit 2
rm -f agent.csv link_performance.csv origin_wait.csv gap.csv
echo "${SLURMD_NODENAME:-$(uname -n)}" >machine.txt
# shellcheck disable=SC2046
"$program" $(sed 1q words.txt) >report.txt
status=$?
echo $status >status.txt
exit $status
