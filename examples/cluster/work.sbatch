#!/bin/sh
#SBATCH --job-name=xcols-work
#SBATCH --ntasks=1
#SBATCH --requeue
# A task of the array answers the query for one fragment. It may run twice, also at once: the answer has its
# name only once it is whole.
exec "$XCOLS" work "$TABLES" --query "$QUERY" --fragment "$SLURM_ARRAY_TASK_ID" --out "$ANSWERS/$SLURM_ARRAY_TASK_ID.xga"
