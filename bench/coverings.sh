#!/bin/sh
# Measures `excess`, `reduce` and `greedy` of the built program against `coverings.rs`, written by hand. It prints the
# best and the median wall time of ten runs each, taken in turn, the ratios, and the peak memory. Both refuse blocks
# that do not cover. It needs rustc and GNU time.
# usage: coverings.sh LJCR
set -eu
ljcr=$1
here=$(cd "$(dirname "$0")" && pwd)
work=$(mktemp -d)
trap 'rm -rf "$work"' EXIT
. "$here/times.sh"
rustc -O -C target-cpu=x86-64-v2 -o "$work/coverings" "$here/coverings.rs"
rustc -O -C target-cpu=x86-64-v2 -o "$work/marking" "$here/marking.rs"

line='%-8s %-10s %8s %8s %6s %8s %8s %6s %9s %9s\n'
printf "$line" command cell hand ljcr ratio hand ljcr ratio hand ljcr
printf "$line" '' '' best best best median median median kB kB
# The blocks of `excess` have about 10^9 sets together.
while read -r command v k t blocks seed; do
    : > "$work/input"
    [ "$blocks" -eq 0 ] || "$work/marking" generate "$v" "$k" "$blocks" "$seed" > "$work/input"
    rm -f "$work"/times_*
    for run in 1 2 3 4 5 6 7 8 9 10; do
        measure hand "$work/input" "$work/coverings" "$command" "$v" "$k" "$t"
        measure ljcr "$work/input" "$ljcr" "$command" "$v" "$k" "$t"
    done
    cmp -s "$work/output_hand" "$work/output_ljcr" || echo "the results differ at $command $v $k $t"
    echo "$command $v,$k,$t $(summary hand) $(summary ljcr)" | awk -v line="$line" '
        function ratio(a, b) { return b > 0 ? sprintf("%.2f", a / b) : "-" }
        { printf line, $1, $2, $3, $6, ratio($6, $3), $4, $7, ratio($7, $4), $5, $8 }'
done <<INPUTS
excess 30 25 5 18821 2
excess 40 25 5 18821 8
excess 60 20 5 64500 9
reduce 32 6 4 100000 1
greedy 32 6 4 0 0
greedy 24 8 5 0 0
greedy 40 10 3 0 0
INPUTS
