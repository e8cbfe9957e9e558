#!/bin/sh
# A table in S shares by GNU parallel, one at a time on each processor, and merged: sh parallel.sh W D M ORDER S
#
# Share i stands in the file share-i-of-S of this folder, and what merging prints in the file rows. A share that fails is tried three times.
# For other machines, which see the same folder, put --sshloginfile or --sshlogin, and --workdir . behind the name of parallel.
set -e
w=$1 d=$2 m=$3 order=$4 s=$5
seq 0 $((s - 1)) | parallel --retries 3 "mzv_merge share $w $d $m $order {} $s >share-{}-of-$s.new && mv share-{}-of-$s.new share-{}-of-$s"
seq 0 $((s - 1)) | sed "s/.*/share-&-of-$s/" | xargs mzv_merge merge "$w" "$d" "$m" "$order" "$s" >rows.new
mv rows.new rows
