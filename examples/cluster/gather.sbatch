#!/bin/sh
#SBATCH --job-name=xcols-gather
#SBATCH --ntasks=1
# Gathers what has come. The status is 4 where answers are missing: run with-slurm again.
exec "$XCOLS" gather "$TABLES" --query "$QUERY" "$ANSWERS"/*.xga
