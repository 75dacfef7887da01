#!/bin/sh
# Runs `ljcr build` and `ljcr serve` on a small script with ever more address space, from less than they need to more
# than that, and prints for each how many runs it started and how many ended with which status. Each run has to end in
# a minute: with status 0 and the report of a run without a limit, or with status 7, or 127 where the system could not
# start the program; any other end is printed, and the script ends with status 1.
# usage: little_memory.sh LJCR [FIRST LAST STEP]   (kilobytes: 2,000, 14,000 and 16 where no numbers are given)
set -eu
ljcr=$1
first=${2:-2000}
last=${3:-14000}
step=${4:-16}
work=$(mktemp -d)
trap 'rm -rf "$work"' EXIT

# Four clients that upload, settle, and read bounds, plans and blocks.
awk 'BEGIN {
    print "frame 12 6 3"
    for (c = 1; c <= 4; c++) {
        print "client c" c
        print "upload 5 3 2\n1 2 3\n1 4 5\n2 4 5\n3 4 5\nend"
        print "settle\nbound 6 3 2\nplan 6 3 2\nexpand 12 6 3"
    }
}' > "$work/script"
"$ljcr" build < "$work/script" | sed -n '/^report$/,/^rebuilt/p' | grep -v '^rebuilt' > "$work/report"

# ends NAME WORD..: runs with each limit
ends() {
    name=$1
    shift
    rm -f "$work/statuses"
    kilobytes=$first
    while [ "$kilobytes" -le "$last" ]; do
        status=0
        (ulimit -v "$kilobytes" && exec timeout 60 "$ljcr" "$@") < "$work/script" > "$work/output" 2> "$work/errors" \
            || status=$?
        if [ "$status" -eq 0 ]; then
            sed -n '/^report$/,$p' "$work/output" | grep -v '^rebuilt' > "$work/other"
            cmp -s "$work/report" "$work/other" || status=wrong
        fi
        case $status in
        0 | 7 | 8 | 127) ;;
        *) echo "$name with $kilobytes kB ended with $status" ;;
        esac
        echo "$status" >> "$work/statuses"
        kilobytes=$((kilobytes + step))
    done
    echo "$name: $(wc -l < "$work/statuses") runs;$(sort -n "$work/statuses" | uniq -c |
        awk '{ printf " %d ended with %s,", $1, $2 }' | sed 's/,$//')"
    if grep -qvE '^(0|7|8|127)$' "$work/statuses"; then
        failed=1
    fi
}

failed=0
ends 'build' build
ends 'serve, 1 worker' serve --workers 1
ends 'serve, 8 workers' serve --workers 8
exit "$failed"
