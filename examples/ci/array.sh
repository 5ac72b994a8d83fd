#!/bin/bash
# A task of a job array, which takes every n-th file below bin/. For Slurm, with a folder reports:
# sbatch --array=0-7 array.sh, and together.sh when all tasks have ended.
find bin -name '*.dll' | LC_ALL=C sort |
    awk -v task="$SLURM_ARRAY_TASK_ID" -v tasks="$SLURM_ARRAY_TASK_COUNT" 'NR % tasks == task' |
    while read -r file; do /opt/cccheck/cccheck check "$file" 2>&1 || true; done \
        >"reports/$SLURM_ARRAY_TASK_ID.txt"
