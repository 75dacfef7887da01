#!/bin/sh
# Measures `ljcr serve` with 1, 2 and 4 workers beside `ljcr build` on a script of sixteen clients with two uploads of
# 1,900 blocks at (42,25,8) each: every check marks some 2,050 million sets, finds that the blocks do not cover, and
# takes a third of a second or so. It takes ten runs of each, in turn, and prints the best and the median wall time in
# seconds, and the ratios of the times of `build` to the others. It needs GNU time, and takes some minutes.
# usage: checks.sh LJCR
set -eu
ljcr=$1
here=$(cd "$(dirname "$0")" && pwd)
work=$(mktemp -d)
trap 'rm -rf "$work"' EXIT
. "$here/times.sh"

awk 'BEGIN {
    srand(42)
    print "frame 42 25 8"
    for (c = 1; c <= 16; c++) {
        print "client c" c
        for (u = 1; u <= 2; u++) {
            print "upload 42 25 8"
            for (b = 1; b <= 1900; b++) {
                need = 25
                line = ""
                for (p = 1; p <= 42; p++) if (rand() * (43 - p) < need) { line = line " " p; need-- }
                print substr(line, 2)
            }
            print "end"
        }
    }
}' > "$work/script"

for run in 1 2 3 4 5 6 7 8 9 10; do
    measure build "$work/script" "$ljcr" build
    for workers in 1 2 4; do
        measure "$workers" "$work/script" "$ljcr" serve --workers "$workers"
        grep -v '^rebuilt' "$work/output_$workers" | cmp -s - "$work/output_build" || {
            echo "serve prints something else than build" >&2
            exit 1
        }
    done
done
for side in build 1 2 4; do
    # shellcheck disable=SC2046
    set -- $(summary "$side")
    [ "$side" = build ] && best=$1 && median=$2
    echo "$side $1 $2 $best $median" | awk '{
        printf "%-6s best %7.3f median %7.3f, build to it %5.2f %5.2f\n", $1, $2, $3, $4 / $2, $5 / $3 }'
done
