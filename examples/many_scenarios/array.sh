#!/bin/sh
#SBATCH --job-name=scenarios
#SBATCH --ntasks=1
#SBATCH --cpus-per-task=1
#SBATCH --output=slurm_%A_%a.out
# sbatch --array=1-4 array.sh PROGRAM: a job array of Slurm, each task of which runs one scenario on
# whichever machine it gets. Task k takes the k-th folder of scenarios/ by name. PROGRAM and this
# folder are on a file system that all machines see; call it in this folder.
cd "${SLURM_SUBMIT_DIR:-.}" || exit 2
folder=$(ls -d scenarios/*/ | sed -n "${SLURM_ARRAY_TASK_ID}p")
[ -n "$folder" ] || { echo "there is no scenario $SLURM_ARRAY_TASK_ID" >&2; exit 2; }
exec ./run_one.sh "$1" "$folder"
