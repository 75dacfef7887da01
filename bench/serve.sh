#!/bin/sh
# Measures `ljcr serve` with 1, 2 and 4 workers beside `ljcr build` on the same script, and `ljcr big` beside `build` on
# its script: frames alone with a client that settles; generated scripts; sixteen clients of 40 uploads each, whose
# checks take the most time; and a million `bound` commands of sixteen clients, in 16 runs. It takes ten runs of each,
# in turn, and prints the best and the median wall time in seconds, and the ratios of the best to that of `build`. It
# needs GNU time.
# usage: serve.sh LJCR
set -eu
ljcr=$1
here=$(cd "$(dirname "$0")" && pwd)
work=$(mktemp -d)
trap 'rm -rf "$work"' EXIT
. "$here/times.sh"

# row NAME: prints the summaries of the four sides
row() {
    echo "$1 $(summary build) $(summary one) $(summary two) $(summary four)" | awk '{
        printf "%-24s", $1
        for (i = 2; i <= 11; i += 3) printf " %7.3f %7.3f", $i, $(i + 1)
        for (i = 5; i <= 11; i += 3) printf " %6.2f", ($2 > 0 ? $i / $2 : 0)
        printf "\n"
    }'
}

# compare NAME TIMES: runs each side on the script, so many times in a row
compare() {
    rm -f "$work"/times_*
    for run in 1 2 3 4 5 6 7 8 9 10; do
        repeat build "$2" build
        repeat one "$2" serve --workers 1
        repeat two "$2" serve --workers 2
        repeat four "$2" serve --workers 4
    done
    row "$1"
}

# repeat SIDE TIMES WORD..: measures so many runs of the words together
repeat() {
    side=$1
    times=$2
    shift 2
    # shellcheck disable=SC2016
    measure "$side" /dev/null sh -c 'script=$1; times=$2; shift 2
        while [ "$times" -gt 0 ]; do "$@" < "$script" > /dev/null; times=$((times - 1)); done' \
        sh "$work/script" "$times" "$ljcr" "$@"
}

printf '%-24s %15s %15s %15s %15s %20s\n' '' build 'serve, 1' 'serve, 2' 'serve, 4' 'to build: 1, 2, 4'
printf '%-24s' script
for side in 1 2 3 4; do printf ' %7s %7s' best median; done
printf '\n'
for frame in '64 8 4' '99 12 4' '99 25 8'; do
    printf 'frame %s\nclient a\nsettle\n' "$frame" > "$work/script"
    compare "frame_$(echo "$frame" | tr ' ' '_')" 1
done

# `big` prints a summary of what `serve` prints
for m in 5 6; do
    "$ljcr" gen "$m" > "$work/script"
    rm -f "$work"/times_*
    for run in 1 2 3 4 5 6 7 8 9 10; do
        measure build "$work/script" "$ljcr" build
        measure one /dev/null "$ljcr" big "$m" --workers 1
        measure two /dev/null "$ljcr" big "$m" --workers 2
        measure four /dev/null "$ljcr" big "$m" --workers 4
    done
    row "big_$m"
done

# Sixteen clients with 40 uploads of (28,25,8) each: nine blocks, which leave out three points each and so cover, three
# times over. A check marks some 29 million sets.
awk -v over=3 'BEGIN {
    print "frame 28 25 8"
    for (b = 0; b < 9; b++) {
        line = ""
        for (p = 1; p <= 28; p++) if (p <= 3 * b || p > 3 * b + 3) line = line " " p
        for (i = 1; i <= over; i++) body = body substr(line, 2) "\n"
    }
    for (c = 1; c <= 16; c++) {
        print "client c" c
        for (u = 1; u <= 40; u++) printf "upload 28 25 8\n%send\n", body
    }
}' > "$work/script"
compare 16_clients_640_uploads 1

# Sixteen clients with 4,096 commands each, sixteen times: 1,048,576 commands.
awk 'BEGIN {
    print "frame 64 8 4"
    for (c = 1; c <= 16; c++) {
        print "client c" c
        for (i = 1; i <= 4096; i++) print "bound " 64 - i % 50 " 8 4"
    }
}' > "$work/script"
compare a_million_bounds 16
