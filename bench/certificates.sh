#!/bin/sh
# Measures `ljcr certify` and `ljcr audit`, with 1, 2 and 4 workers, beside `ljcr build`: frames alone, a generated
# script, many uploads at the greatest frame, and many small uploads; and the reading of a certificate of nearly 2^27
# bytes that is faulty in its last line, beside a program by hand, lines.rs, that goes through the lines twice. It takes
# ten runs of each, in turn, and prints the best and the median wall time in seconds, the peak memory in megabytes, the
# ratios to the time of `build` or of the program by hand, and those of an audit by 4 workers to one by 1. It needs
# rustc and GNU time, and takes some minutes.
# usage: certificates.sh LJCR
set -eu
ljcr=$1
here=$(cd "$(dirname "$0")" && pwd)
work=$(mktemp -d)
trap 'rm -rf "$work"' EXIT
. "$here/times.sh"
rustc -O -C target-cpu=x86-64-v2 -o "$work/lines" "$here/lines.rs"

# rows NAME BASE SIDE..: prints the times of the sides, with the ratios to those of the base
rows() {
    name=$1
    base=$(summary "$2")
    shift
    for side in "$@"; do
        echo "$name $side $(summary "$side") $base" | awk '{
            printf "%-10s %-8s best %7.3f median %7.3f MB %7.1f ratios %5.2f %5.2f\n",
                $1, $2, $3, $4, $5 / 1024, ($6 > 0 ? $3 / $6 : 0), ($7 > 0 ? $4 / $7 : 0)
        }'
    done
    rm -f "$work"/times_*
}

# workers_ratio NAME: prints the ratio of the times of an audit by 4 workers to those of an audit by 1
workers_ratio() {
    echo "$1 $(summary audit_1) $(summary audit_4)" | awk '{
        printf "%-10s audit by 4 workers to that by 1: best %.2f median %.2f\n",
            $1, ($2 > 0 ? $5 / $2 : 0), ($3 > 0 ? $6 / $3 : 0)
    }'
}

# compare NAME: the sides on the script
compare() {
    for run in 1 2 3 4 5 6 7 8 9 10; do
        measure build "$work/script" "$ljcr" build
        measure certify "$work/script" "$ljcr" certify
        cp "$work/output_certify" "$work/certificate"
        for workers in 1 2 4; do
            measure "audit_$workers" "$work/certificate" "$ljcr" audit --workers "$workers"
        done
    done
    wc -c < "$work/certificate" | awk -v name="$1" '{ print name, "bytes of the certificate:", $1 }'
    workers_ratio "$1"
    rows "$1" build certify audit_1 audit_2 audit_4
}

for frame in '64 8 4' '99 12 4' '99 25 8'; do
    echo "frame $frame" > "$work/script"
    compare "$(echo "$frame" | tr ' ' '_')"
done
"$ljcr" gen 5 > "$work/script"
compare gen_5

# 383 uploads at the greatest frame. The points of each are cut into groups of k / t points, and a block is the union of
# t groups, filled up with the least points that it lacks: any t points lie in t groups
awk '
    function choose(n, r,   c, i) {
        c = 1
        for (i = 1; i <= r; i++) c = c * (n - r + i) / i
        return c
    }
    function block(v, k, t, size,   i, p, count, in_block, line) {
        for (i = 1; i <= t; i++)
            for (p = (group[i] - 1) * size + 1; p <= group[i] * size && p <= v; p++) {
                in_block[p] = 1
                count++
            }
        for (p = 1; count < k; p++)
            if (!(p in in_block)) {
                in_block[p] = 1
                count++
            }
        for (p = 1; p <= v; p++)
            if (p in in_block) line = line " " p
        print substr(line, 2)
    }
    function blocks(v, k, t, size, groups, chosen, first,   g) {
        if (chosen == t) {
            block(v, k, t, size)
            return
        }
        for (g = first; g <= groups; g++) {
            group[chosen + 1] = g
            blocks(v, k, t, size, groups, chosen + 1, g + 1)
        }
    }
    BEGIN {
        print "frame 99 25 8"
        for (t = 1; t <= 8; t++) {
            if (t <= 2) print "client c" t
            for (k = 2 * t; k <= 25; k++)
                for (v = 99; v >= 29; v -= 10) {
                    size = int(k / t)
                    groups = int((v + size - 1) / size)
                    if (choose(groups, t) > 100 || choose(v, t) > 4000000) continue
                    print "upload " v " " k " " t
                    blocks(v, k, t, size, groups, 0, 1)
                    print "end"
                }
        }
    }' > "$work/script"
compare many_uploads

# 4,096 uploads of one block, which need no threads of their own
awk 'BEGIN {
    print "frame 3 3 1"
    for (c = 1; c <= 16; c++) {
        print "client c" c
        for (u = 1; u <= 256; u++) print "upload 3 3 1\n1 2 3\nend"
    }
}' > "$work/script"
compare 4096_uploads

# seventeen uploads of 100,000 blocks at (99,25,2), and a last line that is none of a certificate's
awk 'BEGIN {
    print "cert 99 25 2"
    for (p = 10; p < 35; p++) line = line " " p
    line = substr(line, 2)
    for (u = 1; u <= 17; u++) {
        print "upload a " u " 99 25 2"
        for (b = 1; b <= 100000; b++) print line
        print "end"
    }
    print "x"
}' > "$work/certificate"
wc -c < "$work/certificate" | awk '{ print "bytes of the faulty certificate:", $1 }'
for run in 1 2 3 4 5 6 7 8 9 10; do
    measure lines "$work/certificate" "$work/lines"
    measure audit "$work/certificate" "$ljcr" audit || [ $? = 3 ]
done
rows reading lines audit
