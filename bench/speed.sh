#!/bin/sh
# Measures the check of the built program against two written by hand, with 1 and with 4 workers: `marking.rs`, by runs
# of pairs, and `strings.rs`, by whole strings of ranks. It prints the best and the median wall time of ten runs each,
# taken in turn, the ratios of the program's to both, and the peak memory. It needs rustc and GNU time, and takes some
# minutes.
# usage: speed.sh LJCR
set -eu
ljcr=$1
here=$(cd "$(dirname "$0")" && pwd)
work=$(mktemp -d)
trap 'rm -rf "$work"' EXIT
. "$here/times.sh"
rustc -O -C target-cpu=x86-64-v2 -o "$work/marking" "$here/marking.rs"
rustc -O -C target-cpu=x86-64-v2 -o "$work/strings" "$here/strings.rs"
sh "$here/inputs.sh" "$work/marking" "$work/inputs"

line='%-26s %-7s %8s %8s %8s %6s %6s %8s %8s %8s %6s %6s %9s %9s %9s\n'
printf "$line" input workers pairs strings ljcr /pairs /str pairs strings ljcr /pairs /str pairs strings ljcr
printf "$line" '' '' best best best best best median median median median median kB kB kB
while read -r name v k t; do
    cp "$work/inputs/$name" "$work/input"
    for workers in 1 4; do
        rm -f "$work"/times_*
        for run in 1 2 3 4 5 6 7 8 9 10; do
            # Status 1 says that the blocks do not cover.
            measure pairs "$work/input" "$work/marking" check "$v" "$k" "$t" "$workers" || [ $? -eq 1 ]
            measure strings "$work/input" "$work/strings" check "$v" "$k" "$t" "$workers" || [ $? -eq 1 ]
            measure ljcr "$work/input" "$ljcr" check "$v" "$k" "$t" --workers "$workers" || [ $? -eq 1 ]
        done
        cmp -s "$work/output_pairs" "$work/output_ljcr" || echo "the results differ at $name"
        cmp -s "$work/output_strings" "$work/output_ljcr" || echo "the results differ at $name"
        echo "$name $workers $(summary pairs) $(summary strings) $(summary ljcr)" | awk -v line="$line" '
            function ratio(a, b) { return b > 0 ? sprintf("%.2f", a / b) : "-" }
            {
                printf line, $1, $2, $3, $6, $9, ratio($9, $3), ratio($9, $6),
                    $4, $7, $10, ratio($10, $4), ratio($10, $7), $5, $8, $11
            }'
    done
done <<INPUTS
many_small_blocks 32 6 4
many_marks_in_a_small_map 30 25 5
many_marks_in_a_large_map 42 25 8
many_marks_at_60 60 25 6
sparse_blocks 99 20 5
pairs 99 25 2
most_sets 52 8 7
INPUTS
