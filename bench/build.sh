#!/bin/sh
# Measures `ljcr build`: scripts of a frame alone, beside `building.rs`, a program by hand in safe Rust that reads the
# frame, closes the bounds and writes the same report; and generated scripts, many uploads, many blocks and a large
# body, for which there is no program by hand. It takes ten runs of each, in turn, and prints the best and the median
# wall time in seconds and the peak memory in megabytes. It needs rustc and GNU time, and takes a minute.
# usage: build.sh LJCR
set -eu
ljcr=$1
here=$(cd "$(dirname "$0")" && pwd)
work=$(mktemp -d)
trap 'rm -rf "$work"' EXIT
. "$here/times.sh"
rustc -O -C target-cpu=x86-64-v2 --check-cfg 'cfg(unchecked)' -o "$work/building" "$here/building.rs"

# row NAME SIDE..: prints the summary of each side
row() {
    name=$1
    shift
    line=$name
    for side in "$@"; do
        line="$line $(summary "$side")"
    done
    echo "$line" | awk '{
        if (NF > 4) printf "%-28s %8.2f %8.2f %6.1f %8.2f %8.2f %6.1f %6.2f\n",
            $1, $2, $3, $4 / 1024, $5, $6, $7 / 1024, ($2 > 0 ? $5 / $2 : 0)
        else printf "%-28s %8s %8s %6s %8.2f %8.2f %6.1f\n", $1, "", "", "", $2, $3, $4 / 1024
    }'
}

# repeat SIDE TIMES COMMAND..: measures so many runs of the command on the script together, and keeps the last output
repeat() {
    side=$1
    times=$2
    shift 2
    # shellcheck disable=SC2016
    measure "$side" /dev/null sh -c 'script=$1; last=$2; times=$3; shift 3
        while [ "$times" -gt 0 ]; do "$@" < "$script" > "$last"; times=$((times - 1)); done' \
        sh "$work/script" "$work/last_$side" "$times" "$@"
}

# beside FRAME TIMES: so many runs of both programs on the frame
beside() {
    rm -f "$work"/times_*
    echo "frame $1" > "$work/script"
    for run in 1 2 3 4 5 6 7 8 9 10; do
        repeat hand "$2" "$work/building"
        repeat ljcr "$2" "$ljcr" build
    done
    cmp "$work/last_hand" "$work/last_ljcr"
    row "$(echo "$2 times frame $1" | tr ' ' '_')" hand ljcr
}

echo 'script                       hand: best   median   MB  ljcr: best  median  MB  ratio of the best'
beside '32 6 4' 100
beside '64 8 4' 20
beside '99 12 4' 5
beside '99 25 8' 1

# alone NAME: the built program on the script
alone() {
    rm -f "$work"/times_*
    for run in 1 2 3 4 5 6 7 8 9 10; do
        measure ljcr "$work/script" "$ljcr" build
    done
    row "$1" ljcr
}

"$ljcr" gen 5 > "$work/script"
alone gen_5
"$ljcr" gen 6 > "$work/script"
alone gen_6
# sixteen clients with 256 uploads of four triples each
awk 'BEGIN {
    print "frame 20 8 4"
    for (c = 1; c <= 16; c++) {
        print "client c" c
        for (u = 1; u <= 256; u++) print "upload 5 3 2\n1 2 3\n1 4 5\n2 4 5\n3 4 5\nend"
    }
}' > "$work/script"
alone 4096_uploads
# six times the 156,849 triples of 99 points
awk 'BEGIN {
    print "frame 99 3 3\nclient a"
    for (e = 1; e <= 6; e++) print "expand 99 3 3"
}' > "$work/script"
alone 941094_blocks
# a body of 64 MB that is faulty in its last line
awk 'BEGIN {
    print "frame 99 25 8\nclient a\nupload 99 25 2"
    blank = sprintf("%999s", "")
    for (i = 1; i <= 67000; i++) print blank
    print "x\nend"
}' > "$work/script"
alone 64_MB_body
