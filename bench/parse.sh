#!/bin/sh
# How long it takes to parse sources of 2 MiB and 4 MiB, and how much memory at its peak, for four kinds of text:
# statements that stand in each other; types; variables with initial values; and small functions, function blocks and
# programs. The end word of the last declaration is missing, so each source is refused at its end, by the parser, and
# nothing but the fetch, the tokens and the parser takes time. Needs awk, GNU time and the program. Fails where the
# second of a kind takes more than 2.2 times the first.
. "$(dirname "$0")/common.sh"
cd "$work"

# At least so many bytes of types: an enumeration, a subrange, an array, a structure and another name, over and over.
types() {
    awk -v bytes="$1" 'BEGIN {
        print "TYPE"
        for (k = 0; size < bytes; k++) {
            line = sprintf("E%d : (RED%d, GREEN%d, BLUE%d) := GREEN%d;\n", k, k, k, k, k) \
                sprintf("N%d : DINT(-%d..%d) := %d;\n", k, k, k, k) \
                sprintf("A%d : ARRAY[0..3, -1..1] OF N%d := [1, 2(-3), 4()];\n", k, k) \
                sprintf("S%d : STRUCT F : E%d := E%d#RED%d; G : A%d; H : BOOL := TRUE; END_STRUCT;\n", k, k, k, k, k) \
                sprintf("T%d : S%d := (F := RED%d, G := [2(1), 3]);", k, k, k)
            print line
            size += length(line) + 1
        }
        print "END_TYPE"
    }'
}

# At least so many bytes of one section of variables with initial values.
variables() {
    awk -v bytes="$1" 'BEGIN {
        print "PROGRAM P\nVAR"
        for (k = 0; size < bytes; k++) {
            line = sprintf("V%d, W%d : INT := -%d; ", k, k, k) \
                sprintf("A%d : ARRAY[0..9] OF INT := [%d, 2(INT#5), 3(), 4([V, W])]; ", k, k) \
                sprintf("X%d AT %%QX%d.%d : BOOL := TRUE; ", k, k % 1000, k % 8) \
                sprintf("S%d : FOO := (F := 16#F, G := (H := [T#1s, C#RED]), I := %d);", k, k)
            print line
            size += length(line) + 1
        }
        print "END_VAR"
    }'
}

# At least so many bytes of small functions, function blocks and programs.
units() {
    awk -v bytes="$1" 'BEGIN {
        for (k = 0; size < bytes; k++) {
            line = sprintf("FUNCTION F%d : INT VAR_INPUT A, B : INT := 1; END_VAR VAR CONSTANT C : INT := 2; END_VAR F%d := A + B * C; END_FUNCTION\n", k, k) \
                sprintf("FUNCTION_BLOCK B%d VAR_INPUT RETAIN A : BOOL; END_VAR VAR_OUTPUT B : BOOL; END_VAR B := NOT A; END_FUNCTION_BLOCK\n", k) \
                sprintf("PROGRAM P%d VAR A : INT; D : B%d; END_VAR D(A := A > 1); A := F%d(A, 2); END_PROGRAM", k, k, k)
            print line
            size += length(line) + 1
        }
        print "FUNCTION_BLOCK LAST\nEND_FUNCTION_BLOCK"
    }'
}

echo "| Source | Bytes | Seconds | Peak memory in MiB |"
echo "|---|---|---|---|"
for kind in nested types variables units; do
    # all lines but the last, which has the end word
    "$kind" 2096000 | sed '$d' >two.st
    "$kind" 4193000 | sed '$d' >four.st
    for file in two.st four.st; do
        [ "$(wc -c <"$file")" -le 4194304 ] || { echo "$kind: $file is too long" >&2; exit 2; }
        "$program" "$file" >said 2>complained && { echo "$kind: $file is accepted" >&2; exit 1; }
        [ "$(cat complained)" = "$file:$(($(wc -l <"$file") + 1)):1: error G1: not expected here" ] || { cat complained >&2; exit 1; }
    done
    compare "$kind" two.st four.st 2.2
done
