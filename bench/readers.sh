#!/bin/sh
# Counts how often `ljcr serve` calls the lock of its table, beside the number of `bound` commands that its clients
# send: two runs of sixteen clients and four workers over the same frame, with 10 and with 4,000 such commands a client.
# Only calls that the compiler left as calls are counted: a lock that is taken in line, as in the workers' claims, is
# not. It needs valgrind, and a program with the names of its functions, as `rt run` builds it.
# usage: readers.sh LJCR
set -eu
ljcr=$1
work=$(mktemp -d)
trap 'rm -rf "$work"' EXIT

# calls NAME: prints how often functions of that name were called
calls() {
    awk -v name="$1" '
        /^c?fn=/ {
            number = $1
            sub(/^c?fn=/, "", number)
            if (NF > 1) { rest = $0; sub(/^[^ ]* /, "", rest); names[number] = rest }
            if ($0 ~ /^cfn=/) called = names[number]
        }
        /^calls=/ { split($1, part, "="); if (index(called, name)) count += part[2] }
        END { print count + 0 }' "$work/profile"
}

for each in 10 4000; do
    awk -v each="$each" 'BEGIN {
        print "frame 12 6 3"
        for (c = 1; c <= 16; c++) {
            print "client c" c
            for (i = 0; i < each; i++) print "bound " 5 + i % 8 " 3 2"
        }
    }' > "$work/script"
    valgrind --tool=callgrind --callgrind-out-file="$work/profile" "$ljcr" serve --workers 4 < "$work/script" \
        > "$work/output" 2> "$work/errors"
    replies=$(grep -c '^bound' "$work/output")
    echo "$replies replies to bound, $(calls 'Mutex::lock') calls of the lock," \
        "of them $(calls 'Shared::publish') publications"
done
