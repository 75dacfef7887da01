# What the scripts that measure share. They set `work` to a folder of their own.

# measure SIDE INPUT COMMAND..: runs the command on the input, keeps its output, and appends the wall time in seconds,
# to the millisecond, and the peak memory in kilobytes to the times of that side; its status is the command's. Starting
# the command is part of the time: about two milliseconds
measure() {
    side=$1
    input=$2
    shift 2
    status=0
    begin=$(date +%s%N)
    /usr/bin/time -o "$work/time" -f '%M' "$@" < "$input" > "$work/output_$side" 2> "$work/errors" || status=$?
    end=$(date +%s%N)
    milliseconds=$(((end - begin) / 1000000))
    printf '%d.%03d %d\n' $((milliseconds / 1000)) $((milliseconds % 1000)) "$(tail -n 1 "$work/time")" \
        >> "$work/times_$side"
    return "$status"
}

# summary SIDE: prints the best time, the median time and the greatest peak of ten runs
summary() {
    sort -n "$work/times_$1" | awk '{ time[NR] = $1; if ($2 > peak) peak = $2 }
        END { printf "%.3f %.3f %d", time[1], (time[5] + time[6]) / 2, peak }'
}
