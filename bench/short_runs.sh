#!/bin/sh
# Runs `ljcr serve` with sixteen clients and 64 workers on small scripts many times, one after the other, and prints how
# many runs it started, how many ended in time with status 0 and the expected report, and how long all took. A run that
# has not ended after a minute is stopped and not counted as ended.
# usage: short_runs.sh LJCR [RUNS]   (10,000 runs where no number is given)
set -eu
ljcr=$1
runs=${2:-10000}
work=$(mktemp -d)
trap 'rm -rf "$work"' EXIT

# script FRAME: sixteen clients that upload, settle and read
script() {
    awk -v frame="$1" 'BEGIN {
        print "frame " frame
        for (c = 1; c <= 16; c++) {
            print "client c" c
            if (c % 4 == 1) print "upload 5 3 2\n1 2 3\n1 4 5\n2 4 5\n3 4 5\nend"
            if (c % 4 == 2) print "settle\nbound 5 3 2"
            if (c % 4 == 3) print "upload 2 1 1\n1\n2\nend\nplan 2 1 1"
        }
    }'
}

# The frame of the greatest script has the uploads' cells; the frame of the least has few.
script '6 3 2' > "$work/1"
script '2 1 1' > "$work/2"
script '1 1 1' > "$work/3"
for i in 1 2 3; do
    "$ljcr" build < "$work/$i" | sed -n '/^report$/,$p' > "$work/report_$i"
    echo 'rebuilt 0' >> "$work/report_$i"
done

begin=$(date +%s)
started=0
ended=0
while [ "$started" -lt "$runs" ]; do
    i=$((started % 3 + 1))
    started=$((started + 1))
    if timeout 60 "$ljcr" serve --workers 64 < "$work/$i" > "$work/output"; then
        sed -n '/^report$/,$p' "$work/output" > "$work/report"
        if cmp -s "$work/report" "$work/report_$i"; then
            ended=$((ended + 1))
        else
            echo "run $started printed another report" >&2
        fi
    else
        echo "run $started ended with status $?" >&2
    fi
done
echo "$started runs of 16 clients and 64 workers, $ended ended well, $(($(date +%s) - begin)) seconds"
[ "$ended" -eq "$started" ]
