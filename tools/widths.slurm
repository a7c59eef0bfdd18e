#!/usr/bin/env bash
# One width of a design for each task of an array job of Slurm, in the repository's folder:
#
#     sbatch --array=8-10 tools/widths.slurm DESIGN RUNS
#
# Without --array it is one job, the least width of the placement.
#SBATCH --job-name=gafkelam
#SBATCH --ntasks=1
#SBATCH --mem=4G
exec tools/one_width "$1" "${SLURM_ARRAY_TASK_ID:-least}" "$2"
