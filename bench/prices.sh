#!/bin/sh
# Measures the least prices at all cells of a closed table without uploads: the proved program beside `prices.rs`, one
# written by hand, in safe Rust and with its reads of bounds unchecked. The time of a pass over all cells is that of a
# run with many passes less that of a run with one, over the number of passes between. It prints the best and the
# median of ten such times for each, in microseconds, taken in turn, and the ratios. It needs rustc and a `date` that
# knows %N, and takes some minutes.
# usage: prices.sh LJ_BENCH_PRICES
set -eu
proved=$1
here=$(cd "$(dirname "$0")" && pwd)
work=$(mktemp -d)
trap 'rm -rf "$work"' EXIT
rustc -O -C target-cpu=x86-64-v2 --check-cfg 'cfg(unchecked)' -o "$work/safe" "$here/prices.rs"
rustc -O -C target-cpu=x86-64-v2 --check-cfg 'cfg(unchecked)' --cfg unchecked -o "$work/unchecked" "$here/prices.rs"

# wall PROGRAM WORD..: prints how many nanoseconds the run takes
wall() {
    start=$(date +%s%N)
    "$@" > /dev/null
    echo $(($(date +%s%N) - start))
}

# pass SIDE PROGRAM V K T N: appends the time of one of N passes, in microseconds, to the times of that side
pass() {
    few=$(wall "$2" "$3" "$4" "$5" 1)
    many=$(wall "$2" "$3" "$4" "$5" $(($6 + 1)))
    echo $(((many - few) / $6 / 1000)) >> "$work/times_$1"
}

# summary SIDE: prints the best and the median of the ten times
summary() {
    sort -n "$work/times_$1" | awk '{ time[NR] = $1 } END { printf "%d %d", time[1], (time[5] + time[6]) / 2 }'
}

line='%-10s %9s %9s %9s %6s %9s %9s %9s %9s %6s %9s\n'
printf "$line" frame safe unchecked ljcr /safe /unchecked safe unchecked ljcr /safe /unchecked
printf "$line" '' best best best best best median median median median median
while read -r v k t n; do
    rm -f "$work"/times_*
    for run in 1 2 3 4 5 6 7 8 9 10; do
        pass safe "$work/safe" "$v" "$k" "$t" "$n"
        pass unchecked "$work/unchecked" "$v" "$k" "$t" "$n"
        pass ljcr "$proved" "$v" "$k" "$t" "$n"
    done
    echo "$v,$k,$t $(summary safe) $(summary unchecked) $(summary ljcr)" | awk -v line="$line" '{
        printf line, $1, $2, $4, $6, sprintf("%.2f", $6 / $2), sprintf("%.2f", $6 / $4),
            $3, $5, $7, sprintf("%.2f", $7 / $3), sprintf("%.2f", $7 / $5)
    }'
done <<FRAMES
32 6 4 400
64 8 4 60
99 12 4 12
99 25 8 4
FRAMES
