#!/bin/sh
#SBATCH --array=0-9
#SBATCH --output=sweep-%a.log
# A batch by Slurm, in a folder that all machines see: sbatch --wait examples/sweep/slurm.sh PROGRAM PARTS
#
# Ten parts, PARTS.00 to PARTS.09, a task each. Sent again, they go on where they were ended.
exec examples/sweep/part "$1" "$2.$(printf %02d "$SLURM_ARRAY_TASK_ID")"
