#!/bin/sh
# Measures the table: the proved program beside `table.rs`, one written by hand in safe Rust that keeps the same bounds,
# nodes and rules. `settle` is a fresh table of the frame, and `upload` one that has accepted all quadruples with xor 0
# of 32 points: the time of one is that of a run with many less that of a run with one, over the number between. Both
# are timed by hand in two ways: `hand` opens all readers of a lowered bound, and `sparing` only those that the proved
# program opens. `accept` is 4,096 uploads of (12,6,3) that are accepted one after the other, less the time of copying
# them, and `close` is settling the table that has them. It prints the best and the median of ten such times for each,
# in microseconds, taken in turn, the ratios to both programs by hand, and the peak memory of one run in kilobytes; then
# how many evaluations `hand` and `sparing` make, and as many as there are cells with two for each lowering. It needs
# rustc, GNU time and a `date` that knows %N, and takes some minutes.
# usage: table.sh LJ_BENCH_TABLE
set -eu
proved=$1
here=$(cd "$(dirname "$0")" && pwd)
work=$(mktemp -d)
trap 'rm -rf "$work"' EXIT
rustc -O -C target-cpu=x86-64-v2 --check-cfg 'cfg(unchecked)' -o "$work/table" "$here/table.rs"
"$work/table" quadruples > "$work/quadruples"
"$work/table" sextuples > "$work/sextuples"
: > "$work/nothing"

# wall PROGRAM WORD..: prints how many nanoseconds the run takes, with `$input` as its input
wall() {
    start=$(date +%s%N)
    "$@" < "$work/$input" > /dev/null 2>&1
    echo $(($(date +%s%N) - start))
}

# between SIDE PROGRAM WORD: appends the time of the work, in microseconds, to the times of that side
between() {
    # shellcheck disable=SC2086
    less=$(wall "$2" "${3%"$word"}$less_work" $frame "$less_times" $cell)
    # shellcheck disable=SC2086
    more=$(wall "$2" "$3" $frame "$times" $cell)
    echo $(((more - less) / over / 1000)) >> "$work/times_$1"
}

# peak SIDE PROGRAM WORD: prints the peak memory of a run, and keeps what it writes
peak() {
    # shellcheck disable=SC2086
    /usr/bin/time -f %M -o "$work/peak" "$2" "$3" $frame "$less_times" $cell \
        < "$work/$input" > "$work/sum_$1" 2> "$work/counts_$1"
    cat "$work/peak"
}

# summary SIDE: prints the best and the median of the ten times
summary() {
    sort -n "$work/times_$1" | awk '{ time[NR] = $1 } END { printf "%d %d", time[1], (time[5] + time[6]) / 2 }'
}

line='%-15s %8s %8s %8s %6s %7s %8s %8s %8s %6s %7s %6s %6s %6s %6s %7s %7s\n'
printf "$line" work hand sparing ljcr /hand /sparing hand sparing ljcr /hand /sparing hand ljcr /hand \
    hand sparing at_most
printf "$line" '' best best best best best median median median median median kB kB kB evals evals ''
while read -r word v k t number; do
    rm -f "$work"/times_*
    frame="$v $k $t"
    case $word in
    settle) input=nothing cell='' less_work=settle less_times=1 times=$((number + 1)) over=$number ;;
    upload) input=quadruples cell='32 4 3' less_work=upload less_times=1 times=$((number + 1)) over=$number ;;
    accept) input=sextuples cell='12 6 3' less_work=copy less_times=$number times=$number over=1 ;;
    close) input=sextuples cell='12 6 3' less_work=accept less_times=$number times=$number over=1 ;;
    esac
    for run in 1 2 3 4 5 6 7 8 9 10; do
        between hand "$work/table" "$word"
        case $word in settle | upload) between sparing "$work/table" "sparing_$word" ;; esac
        between ljcr "$proved" "$word"
    done
    : > "$work/counts_sparing"
    case $word in settle | upload) peak sparing "$work/table" "sparing_$word" > /dev/null ;; esac
    hand=$(peak hand "$work/table" "$word")
    ljcr=$(peak ljcr "$proved" "$word")
    cmp -s "$work/sum_hand" "$work/sum_ljcr" || echo "the bounds differ at $word $frame"
    case $word in
    settle | upload) cmp -s "$work/sum_sparing" "$work/sum_ljcr" || echo "the bounds differ at sparing $frame" ;;
    esac
    sparing='- -'
    case $word in settle | upload) sparing=$(summary sparing) ;; esac
    counts="$(cat "$work/counts_hand") $(cat "$work/counts_sparing")"
    echo "$word,$v,$k,$t $(summary hand) $sparing $(summary ljcr) $hand $ljcr $counts" |
        awk -v line="$line" '
            function ratio(a, b) { return b > 0 ? sprintf("%.2f", a / b) : "-" }
            {
                printf line, $1, $2, $4, $6, ratio($6, $2), ratio($6, $4), $3, $5, $7, ratio($7, $3), ratio($7, $5),
                    $8, $9, ratio($9, $8), $13, ($19 == "" ? "-" : $19), $11 + 2 * $15
            }'
done <<WORKS
settle 32 6 4 40
settle 64 8 4 8
settle 99 12 4 3
settle 99 25 8 2
upload 32 6 4 40
accept 20 8 4 4096
close 20 8 4 4096
WORKS
