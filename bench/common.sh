# What the scripts of this folder share, read by each at its start: the program, which
# `cd crates/iec2c && rt run -- data/a.st` builds, and a folder for files, which goes at the end.
set -eu

program=$(cd "$(dirname "$0")/.." && pwd)/crates/iec2c/out/iec2c
[ -x "$program" ] || { echo "no program at $program: build it first" >&2; exit 2; }
work=$(mktemp -d)
trap 'rm -rf "$work"' EXIT

# A program of at least so many bytes, over few variables: loops, conditions and cases that stand in each other.
nested() {
    awk -v bytes="$1" 'BEGIN {
        block = "FOR A := 0 TO B + 2 BY D DO IF A < B AND NOT E THEN CASE A + B OF 1, 3..7: WHILE E DO B := B * 2 - A; EXIT; END_WHILE;" \
            " ELSE REPEAT D := -A + (B - 1); UNTIL A >= B XOR E END_REPEAT; END_CASE; ELSIF E THEN RETURN; ELSE ; END_IF; END_FOR;"
        print "PROGRAM P\nVAR A, B : INT; D : INT := 1; E : BOOL := TRUE; END_VAR"
        for (size = 0; size < bytes; size += length(block) + 1) print block
        print "END_PROGRAM"
    }'
}

# The least of five times in seconds, and the greatest memory in MiB, of a run with this file.
measure() {
    for _ in 1 2 3 4 5; do
        command time -f '%e %M' -o one.txt "$program" "$1" >said 2>complained || :
        tail -n 1 one.txt
    done | awk 'NR == 1 || $1 < least { least = $1 } $2 > most { most = $2 } END { printf "%.2f %.0f\n", least, most / 1024 }'
}

# Rows for two files, the second of twice the size. Fails where the second takes more than so many times as long.
compare() {
    one=$(measure "$2")
    two=$(measure "$3")
    echo "| $1 | $(wc -c <"$2") | ${one% *} | ${one#* } |"
    echo "| $1 | $(wc -c <"$3") | ${two% *} | ${two#* } |"
    echo "${one% *} ${two% *}" | awk -v most="$4" '{ ratio = $2 / $1; printf "ratio %.2f\n", ratio; exit !(ratio <= most) }'
}
