#!/bin/sh
# Refuses each request for memory of a run in turn, and tells how the runs end: the first request alone, the second
# alone, and so on, until a run makes no more. Needs cc and a loader that knows LD_PRELOAD, and the program, which
# `cd crates/iec2c && rt run -- data/a.st` builds. Fails where a run ends neither with 5 nor as it does with memory,
# or leaves something other than the first of its files, whole and in order. A run that ends with 5 says nothing, and
# complains one line; the first requests of a run are for its words, and there it complains nothing either.
set -eu

top=$(cd "$(dirname "$0")/.." && pwd)
program=$top/crates/iec2c/out/iec2c
files='POUS.h C.h POUS.c R.c C.c plc_debugger.c'
[ -x "$program" ] || { echo "no program at $program: build it first" >&2; exit 2; }
work=$(mktemp -d)
trap 'rm -rf "$work"' EXIT
cd "$work"

# malloc and realloc, of which the call with the number REFUSE answers nothing and writes a byte to descriptor 9
cat >refuse.c <<'C'
#define _GNU_SOURCE
#include <dlfcn.h>
#include <stdlib.h>
#include <unistd.h>

static int refused(void) {
    static long calls;
    const char *number = getenv("REFUSE");
    return number && ++calls == atol(number) && write(9, "x", 1) == 1;
}

void *malloc(size_t size) {
    static void *(*real)(size_t);
    if (!real) real = dlsym(RTLD_NEXT, "malloc");
    return refused() ? NULL : real(size);
}

void *realloc(void *block, size_t size) {
    static void *(*real)(void *, size_t);
    if (!real) real = dlsym(RTLD_NEXT, "realloc");
    return refused() ? NULL : real(block, size);
}
C
cc -shared -fPIC -O1 -o refuse.so refuse.c -ldl

mkdir whole
cp "$top/crates/iec2c/data/a.st" whole/a.st
(cd whole && "$program" a.st >/dev/null)

# a run with these words in which the request of this number is refused
run() {
    rm -rf now
    mkdir now
    cp "$top/crates/iec2c/data/a.st" now/a.st
    printf 'PROGRAM P VAR A : REAL;' >now/refused.st
    number=$1
    shift
    status=0
    (cd now && REFUSE=$number LD_PRELOAD=$work/refuse.so "$program" "$@" >said 2>complained 9>asked) || status=$?
}

# how many files are whole, of which there are no others
count_files() {
    whole=0
    gone=0
    for file in $files; do
        if [ ! -e "now/$file" ]; then
            gone=1
        elif [ "$gone" = 0 ] && cmp -s "now/$file" "whole/$file"; then
            whole=$((whole + 1))
        else
            echo "request $number: $file is there, but not as the next whole file" >&2
            exit 1
        fi
    done
}

# the row of this name: its status with memory, and its words
row() {
    name=$1
    own=$2
    shift 2
    number=0
    wanting=0
    wordless=0
    most=0
    others=0
    while :; do
        run "$((number + 1))" "$@"
        [ -s now/asked ] || break
        count_files
        if [ "$status" = 5 ]; then
            wanting=$((wanting + 1))
            [ "$whole" -le "$most" ] || most=$whole
            # nothing is complained of the first requests alone, which are for the words
            [ -s now/complained ] || wordless=$((wordless + 1))
            line='iec2c: out of memory'
            [ "$wordless" -lt "$wanting" ] || line=
            [ ! -s now/said ] && [ "$(cat now/complained)" = "$line" ] || { echo "$name: request $number: something else was said" >&2; exit 1; }
        elif [ "$status" = "$own" ]; then
            others=$((others + 1))
        else
            echo "$name: request $number: status $status" >&2
            exit 1
        fi
    done
    [ "$status" = "$own" ] || { echo "$name: status $status with memory" >&2; exit 1; }
    echo "| $name | $((wanting + others)) | $wanting | $wordless | $others | $most |"
}

echo '| Run | Requests | Ended with 5 | Of these for the words | Ended as with memory | Most files put before a 5 |'
echo '|---|---|---|---|---|---|'
row 'a source that is accepted' 0 a.st
row 'a source that is refused' 1 refused.st
row 'a source that is not there' 3 no.st
row 'two words' 2 a.st a.st
