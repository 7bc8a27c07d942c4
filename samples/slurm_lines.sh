#!/bin/bash
#SBATCH --array=0-3
#SBATCH --cpus-per-task=1
# slurm_lines.sh LINES OUT LIST MODE [LICENSEE]..: the verdicts on a share of the file LINES, as a job of an array. A line belongs
# to the share in which it begins. The files OUT.0, OUT.1, .. one behind the other are what one run over LINES writes, in the modes
# strict, lax and normal. Without Slurm:
#
#   export SLURM_ARRAY_TASK_COUNT=4
#   for SLURM_ARRAY_TASK_ID in 0 1 2 3; do
#       export SLURM_ARRAY_TASK_ID; samples/slurm_lines.sh LINES OUT LIST lax MIT & done; wait
set -euo pipefail
lines=$1 out=$2
shift 2
task=${SLURM_ARRAY_TASK_ID:?} tasks=${SLURM_ARRAY_TASK_COUNT:?}
size=$(stat -Lc %s -- "$lines")

# Where the first line begins that begins at a place or behind it. head ends before tail does, which is no fault.
begin() {
    if ((1 <= $1)); then
        echo $(($1 - 1 + $({ tail -c "+$1" -- "$lines" || true; } 2>/dev/null | head -n 1 | wc -c)))
    else
        echo 0
    fi
}
from=$(begin $((size * task / tasks)))
to=$(begin $((size * (task + 1) / tasks)))
status=0
{ tail -c "+$((from + 1))" -- "$lines" || true; } 2>/dev/null | head -c $((to - from)) |
    spdx_lines "$@" >"$out.$task" || status=$?
# 1 says that a line is refused: an answer, and no fault of the job.
((status <= 1))
