#!/bin/sh
# How many relations of each kind a table of weight W and full depth is built from, for W from 2 to 8.
for weight in 2 3 4 5 6 7 8; do
    mzv list "$weight" "$((weight - 1))" | awk -v weight="$weight" '
        { kinds[$2]++ }
        END { printf "weight %d: Fin %d, Reg %d, Dual %d, Prod %d\n", weight, kinds["Fin"], kinds["Reg"], kinds["Dual"], kinds["Prod"] }'
done
