#!/bin/sh
#SBATCH --job-name=merge
#SBATCH --cpus-per-task=1
# Merges the shares of a table that stand in this folder: sbatch merge.sbatch W D M ORDER S
#
# What it prints stands in the file rows.
set -e
mzv_merge merge "$1" "$2" "$3" "$4" "$5" share-*-of-"$5" >rows.new
mv rows.new rows
