#!/usr/bin/env bash
# One task of a Slurm array for each flight of a list.
#
#   ls -d "$PWD"/flights/*/ > flights.list
#   export FLEET=$PWD/examples/fleet
#   sbatch --array=1-$(wc -l < flights.list) "$FLEET/fleet.sbatch" "$PWD/flights.list" "$PWD/out"
#
# FLEET is the folder of `one`: Slurm copies this script, which then doesn't know where it stood. What is done already is
# left, so the same three lines go on after a break, or after flights were added. A task that is killed begins anew.
#SBATCH --job-name=afdxmon
#SBATCH --cpus-per-task=2
#SBATCH --requeue
#SBATCH --open-mode=append
set -euo pipefail
flight=$(sed -n "${SLURM_ARRAY_TASK_ID}p" "$1")
export WORKERS=${WORKERS:-${SLURM_CPUS_PER_TASK:-2}}
exec "$FLEET/one" "${flight%/}" "$2"
