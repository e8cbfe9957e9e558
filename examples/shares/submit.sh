#!/bin/sh
# A table in S shares by Slurm: sh submit.sh W D M ORDER S, in a folder that all machines see
#
# One job array makes the shares, a task each, and one job behind it merges them, once every task has ended well.
set -e
here=$(dirname "$0")
shares=$(sbatch --parsable --array="0-$(($5 - 1))" "$here/share.sbatch" "$@")
sbatch --parsable --dependency="afterok:$shares" "$here/merge.sbatch" "$@"
