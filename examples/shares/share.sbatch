#!/bin/sh
#SBATCH --job-name=share
#SBATCH --array=0-7
#SBATCH --cpus-per-task=1
# One share of a table for each task of a job array: sbatch share.sbatch W D M ORDER 8
#
# Share i stands in the file share-i-of-8 of the folder from which it was submitted. With other numbers of shares give sbatch another --array;
# a share that was lost is made again by --array with its number alone.
set -e
w=$1 d=$2 m=$3 order=$4 s=$5 i=$SLURM_ARRAY_TASK_ID
mzv_merge share "$w" "$d" "$m" "$order" "$i" "$s" >"share-$i-of-$s.new"
mv "share-$i-of-$s.new" "share-$i-of-$s"
