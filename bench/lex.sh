#!/bin/sh
# How long it takes to fetch a source and to cut it into tokens, and how much memory at its peak, for sources of 2 MiB
# and of 4 MiB: the text of a program, one comment, spaces, and opening brackets. Each is refused at its first token or
# at its end, so nothing but the fetch and the tokens takes time. Times are those of the processor, so that other work on
# the machine changes them little. Needs awk, GNU time and the program. Fails where 4 MiB take more than 2.2 times the
# time or the memory of 2 MiB, or where a token takes more than 160 bytes beside the text.
. "$(dirname "$0")/common.sh"
cd "$work"

# A file of so many bytes: `;`, which begins no source, then declarations and assignments, and blanks to the end. Its
# number of tokens, the end included, goes to the standard error.
code() {
    awk -v bytes="$1" 'BEGIN {
        printf ";\n"
        size = 2
        tokens = 1
        for (k = 0; ; k++) {
            line = sprintf("V%d : INT;\nV%d := V%d + V%d - 1;\n", k, k, int(k / 2), int(k / 3))
            if (size + length(line) > bytes) break
            printf "%s", line
            size += length(line)
            tokens += 12
        }
        printf "%*s", bytes - size, ""
        print tokens + 1 >"/dev/stderr"
    }'
}

# so many bytes, all of them this one
filled() {
    head -c "$1" /dev/zero | tr '\0' "$2"
}

# so many bytes, one comment
comment() {
    printf '(*'
    filled "$(($1 - 4))" x
    printf '*)'
}

# a file must be refused at this place
refused() {
    status=0
    "$program" "$1" >said 2>complained || status=$?
    [ "$status" = 1 ] && [ "$(cut -d ' ' -f 1,2 complained)" = "$1:$2: error" ] \
        || { echo "$1: not refused at $2: $(cat complained)" >&2; exit 1; }
}

# Seconds of a run of a file, the least of nine batches of so many runs. GNU time tells hundredths of a second.
seconds() {
    for _ in 1 2 3 4 5 6 7 8 9; do
        command time -f '%U %S' -o batch.txt sh -c 'left=$3
            while [ "$left" -gt 0 ]; do
                "$1" "$2"
                left=$((left - 1))
            done' batch "$program" "$1" "$2" >said 2>complained || :
        tail -n 1 batch.txt
    done | awk -v runs="$2" '{ one = ($1 + $2) / runs } NR == 1 || one < least { least = one } END { printf "%.6f\n", least }'
}

# KiB of memory at the peak of a run, the greatest of 3
kibibytes() {
    for _ in 1 2 3; do
        command time -f '%M' -o peak.txt "$program" "$1" >said 2>complained || :
        tail -n 1 peak.txt
    done | sort -n | tail -n 1
}

# The row of a file: its name, its tokens, where it is refused, and how many runs a batch has. What a run of an empty
# file takes is taken off the time, and off the memory of a token; a file of one token has no such figure. The figures
# go to the file `figures`.
row() {
    refused "$1" "$3"
    time=$(seconds "$1" "$4")
    peak=$(kibibytes "$1")
    bytes=$(wc -c <"$1")
    awk -v name="$1" -v tokens="$2" -v bytes="$bytes" -v time="$time" -v peak="$peak" \
        -v least="$floor_time" -v floor="$floor_peak" 'BEGIN {
        seconds = time - least
        if (seconds < 0.0001) seconds = 0.0001
        each = ((peak - floor) * 1024 - bytes) / tokens
        printf "| %s | %d | %.4f | %.1f | %d | %s |\n", name, bytes, seconds, peak / 1024, tokens, (tokens > 1 ? sprintf("%.1f", each) : "")
        print name, seconds, peak, (tokens > 1 ? each : 0) >>"figures"
    }'
}

two=2097152
four=4194304
: >empty
code_two=$(code "$two" 2>&1 >code-2)
code_four=$(code "$four" 2>&1 >code-4)
comment "$two" >comment-2
comment "$four" >comment-4
filled "$two" ' ' >spaces-2
filled "$four" ' ' >spaces-4
filled "$two" '(' >brackets-2
filled "$four" '(' >brackets-4
for file in code comment spaces brackets; do
    [ "$(wc -c <$file-2)" -eq "$two" ] && [ "$(wc -c <$file-4)" -eq "$four" ] || { echo "$file: of another size" >&2; exit 2; }
done

: >figures
refused empty 1:1
floor_time=$(seconds empty 100)
floor_peak=$(kibibytes empty)
echo '| Source | Bytes | Seconds | Peak memory in MiB | Tokens | Bytes a token beside the text |'
echo '|---|---|---|---|---|---|'
row code-2 "$code_two" 1:1 5
row code-4 "$code_four" 1:1 5
row comment-2 1 "1:$((two + 1))" 50
row comment-4 1 "1:$((four + 1))" 50
row spaces-2 1 "1:$((two + 1))" 50
row spaces-4 1 "1:$((four + 1))" 50
row brackets-2 "$((two + 1))" 1:1 5
row brackets-4 "$((four + 1))" 1:1 5

awk '{
    name = $1
    sub(/-.*/, "", name)
    if (NR % 2) { seconds = $2; peak = $3 }
    else {
        printf "%s: ratio of seconds %.2f, of memory %.2f\n", name, $2 / seconds, $3 / peak
        if ($2 > 2.2 * seconds || $3 > 2.2 * peak) { printf "%s: more than 2.2 times\n", name; bad = 1 }
    }
    if ($4 > 160) { printf "%s: more than 160 bytes a token\n", $1; bad = 1 }
} END { exit bad }' figures
