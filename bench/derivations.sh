#!/bin/sh
# Measures the program lj_bench: writing plans of up to a million blocks, at once and one by one, beside a program
# written by hand; a million blocks by position, beside making the plan alone; and reading a script of nearly 64 MiB,
# beside going through its lines alone. Ten runs each, taken in turn: the best and the median wall time, the ratios of
# both, and the peak memory. It needs rustc and GNU time.
# usage: derivations.sh LJ_BENCH
set -eu
lj_bench=$1
here=$(cd "$(dirname "$0")" && pwd)
work=$(mktemp -d)
trap 'rm -rf "$work"' EXIT
. "$here/times.sh"
rustc -O -C target-cpu=x86-64-v2 -o "$work/expanding" "$here/expanding.rs"
# 11,184,000 block lines in one body
{
    printf 'frame 7 3 2\nclient a\nupload 7 3 2\n'
    yes '1 2 3' | head -n 11184000
    printf 'end\n'
} > "$work/script"
: > "$work/nothing"

# row NAME: prints the times of both sides
row() {
    echo "$1 $(summary base) $(summary ljcr)" | awk '{
        best = $2 > 0 ? sprintf("%.2f", $5 / $2) : "-"
        median = $3 > 0 ? sprintf("%.2f", $6 / $3) : "-"
        printf "%-28s %8s %8s %6s %8s %8s %6s %9s %9s\n", $1, $2, $5, best, $3, $6, median, $4, $7
    }'
    rm -f "$work"/times_*
}

printf '%-28s %8s %8s %6s %8s %8s %6s %9s %9s\n' work base ljcr ratio base ljcr ratio base ljcr
printf '%-28s %8s %8s %6s %8s %8s %6s %9s %9s\n' '' best best best median median median kB kB
# beside NAME HAND WORD: the program by hand beside lj_bench with the word, which have to write the same
beside() {
    for run in 1 2 3 4 5 6 7 8 9 10; do
        measure base "$work/nothing" "$work/expanding" "$2"
        measure ljcr "$work/nothing" "$lj_bench" "$3"
    done
    cmp -s "$work/output_base" "$work/output_ljcr" || echo "the blocks of $3 differ"
    row "$1"
}

beside written_at_once blocks blocks
beside written_one_by_one blocks stream
beside short_rows_at_once short_rows short_rows
beside long_rows_at_once long_rows long_rows
for word in blocks_at short_rows_at long_rows_at; do
    for run in 1 2 3 4 5 6 7 8 9 10; do
        measure base "$work/nothing" "$lj_bench" few_blocks
        measure ljcr "$work/nothing" "$lj_bench" "$word"
    done
    row "$word"
done
for run in 1 2 3 4 5 6 7 8 9 10; do
    measure base "$work/script" "$lj_bench" lines
    measure ljcr "$work/script" "$lj_bench" script
done
row reading_against_its_lines
