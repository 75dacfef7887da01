#!/bin/sh
# Changes each token of a certificate in turn, a number to the next one and another word to one with `x` after it, runs
# `ljcr audit` on what comes of it, and prints how many of these are good all the same, how many are refused, and how
# many have a fault.
# usage: changed_tokens.sh LJCR CERTIFICATE
set -eu
ljcr=$1
certificate=$2
work=$(mktemp -d)
trap 'rm -rf "$work"' EXIT
tokens=$(wc -w < "$certificate")
good=0 refused=0 faulty=0
n=1
while [ "$n" -le "$tokens" ]; do
    awk -v change="$n" '{
        for (i = 1; i <= NF; i++) {
            seen++
            if (seen == change) $i = ($i ~ /^[0-9]+$/ ? $i + 1 : $i "x")
        }
        print
    }' "$certificate" > "$work/changed"
    status=0
    "$ljcr" audit < "$work/changed" > "$work/output" || status=$?
    case $status in
        0) good=$((good + 1)) ;;
        1) refused=$((refused + 1)) ;;
        3) faulty=$((faulty + 1)) ;;
        *) echo "status $status where token $n is changed" >&2; exit 1 ;;
    esac
    n=$((n + 1))
done
echo "$tokens tokens changed: $good certificates still good, $refused refused, $faulty with a fault"
