#!/bin/sh
# How long a compile takes, and how much memory at its peak, for sources of 1 MiB and 2 MiB of two kinds: variables of
# INT and as many assignments, each with a sum of two variables; and few variables, and statements that stand in each
# other. Needs awk, GNU time and the program. Fails where the second takes more than 2.3 times the first.
. "$(dirname "$0")/common.sh"
cd "$work"

config() {
    echo 'CONFIGURATION C RESOURCE R ON PLC TASK T0(INTERVAL := T#20ms, PRIORITY := 0); PROGRAM I WITH T0 : P; END_RESOURCE END_CONFIGURATION'
}

# A program of at least so many bytes: variables V0, V1 and so on, and then an assignment to each.
sums() {
    awk -v bytes="$1" 'BEGIN {
        print "PROGRAM P\nVAR"
        for (k = 0; size < bytes; k++) {
            d[k] = sprintf("V%d : INT;", k)
            s[k] = sprintf("V%d := V%d + V%d - 1;", k, int(k / 2), int(k / 3))
            size += length(d[k]) + length(s[k]) + 2
        }
        for (i = 0; i < k; i++) print d[i]
        print "END_VAR"
        for (i = 0; i < k; i++) print s[i]
        print "END_PROGRAM"
    }'
}

echo "| Source | Bytes | Seconds | Peak memory in MiB |"
echo "|---|---|---|---|"
for kind in sums nested; do
    { "$kind" 1048576; config; } >one.st
    { "$kind" 2097152; config; } >two.st
    for file in one.st two.st; do
        "$program" "$file" >said || { echo "$kind: $file is refused" >&2; exit 1; }
    done
    compare "$kind" one.st two.st 2.3
done
