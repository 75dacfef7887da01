#!/bin/sh
# Measures how a table comes to rest: by `settle` on one thread, and by one, two and four workers over a shared table.
# It takes ten runs of each, in turn, timed in the program, and prints the median number of turns, the best and the
# median time in milliseconds, and how many turns a second that makes at best. Last come the times that a turn takes
# of one worker without a lock, the median of ten runs, and which part of all are the two steps that are else taken
# under the lock: the claim and the publication. There each ticket gets a copy of the table's lists, in place of being
# brought up to date, whose time is counted for all alone. From these times `locked` is estimated, the part of the
# time for which the lock is held, without bringing tickets up to date: the number of turns times the time of the two
# steps, over the median time.
# usage: shared.sh LJ_BENCH_SHARED
set -eu
program=$1
work=$(mktemp -d)
trap 'rm -rf "$work"' EXIT

# field N: prints the least and the median of ten numbers, the Nth words of the lines
field() {
    awk -v n="$1" '{ print $n }' | sort -n | awk '{ x[NR] = $1 } END { print x[1], int((x[5] + x[6]) / 2) }'
}

line='%-10s %-9s %8s %9s %9s %9s %6s\n'
printf "$line" frame workers turns 'best ms' 'median ms' 'turns/s' locked
for frame in '64 8 4' '99 12 4' '99 25 8'; do
    rm -f "$work"/*
    for run in 1 2 3 4 5 6 7 8 9 10; do
        for workers in 0 1 2 4; do
            # shellcheck disable=SC2086
            "$program" $frame "$workers" time >> "$work/$workers"
        done
        # shellcheck disable=SC2086
        "$program" $frame 1 held >> "$work/held"
    done
    turn=$(awk 'NR == 1 { print $2 }' "$work/1")
    claims=$(field 2 < "$work/held" | awk '{ print $2 }')
    publications=$(field 4 < "$work/held" | awk '{ print $2 }')
    all=$(field 6 < "$work/held" | awk '{ print $2 }')
    for workers in 0 1 2 4; do
        echo "$(echo "$frame" | tr ' ' ,) $workers $(field 2 < "$work/$workers") $(field 4 < "$work/$workers")" |
            awk -v line="$line" -v held=$((claims + publications)) -v one="$turn" '{
                name = $2 == 0 ? "settle" : $2
                rate = $2 == 0 ? "" : sprintf("%d", $4 / $5 * 1e9)
                share = $2 == 0 ? "" : sprintf("%.2f", held / one * $4 / $6)
                turns = $2 == 0 ? "" : $4
                printf line, $1, name, turns, sprintf("%.1f", $5 / 1e6), sprintf("%.1f", $6 / 1e6), rate, share
            }'
    done
    echo "$claims $publications $all $turn" | awk '{
        printf "one worker, a turn: claim %.2f us, publication %.2f us, all %.2f us; both steps are %.2f of it\n",
            $1 / $4 / 1e3, $2 / $4 / 1e3, $3 / $4 / 1e3, ($1 + $2) / $3
    }'
done
