#!/bin/bash
# Prints the processor time that `cells` takes to write a transcript of some 6 MB of many short answers,
# and one of some 9 MB of a few long ones.
#
#     bench/transcript.sh [PROGRAM]
#
# Without PROGRAM it proves and builds crates/cells first.
set -u
top=$(cd "$(dirname "$0")/.." && pwd)
work=$(mktemp -d)
trap 'rm -rf "$work"' EXIT

if [ $# -gt 0 ]; then
    program=$1
else
    (cd "$top/crates/cells" && rt run -- > "$work/build.txt" 2>&1)
    program=$top/crates/cells/out/cells
fi
if [ ! -x "$program" ]; then
    echo "no program $program"
    exit 1
fi

# A folder with the first example's object and this many dumps of its section.
folder() {
    mkdir -p "$work/$1"
    cp "$2" "$work/$1/k#a.o"
    {
        echo 'load k a'
        yes 'dump 1 1' | head -n "$3"
    } > "$work/$1/script"
}

TIMEFORMAT='%U %S'
measure() {
    spent=$({ time "$program" "$work/$1" script > "$work/text.txt"; } 2>&1)
    status=$?
    printf '%-12s %9d bytes %6.0f ms  status %d\n' "$1" "$(wc -c < "$work/text.txt")" \
        "$(echo "$spent" | awk '{print ($1 + $2) * 1000}')" "$status"
}

folder short "$top/examples/first/k#a.o" 116000
measure short
# 200 pages of zeros, which take no bytes of the file.
PYTHONDONTWRITEBYTECODE=1 PYTHONPATH="$top/bench" python3 -c \
    'import objects, sys; sys.stdout.buffer.write(objects.zeros(200))' > "$work/zeros.o" || exit 1
folder long "$work/zeros.o" 3
measure long
