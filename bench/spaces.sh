#!/bin/bash
# Prints the processor time of loads and dumps by how many namespaces there are, and of one load of 1,000 crates with
# three links each. `load-none` adds the namespaces alone, and `read-1000` reads the files of `load-1000` alone.
# `clone-500` clones the namespace after `load-500`; it fails where the clone takes more than 1.5 times the load.
#
#     bench/spaces.sh [PROGRAM]
#
# Without PROGRAM it proves and builds crates/cells first.
set -u
top=$(cd "$(dirname "$0")/.." && pwd)
work=$(mktemp -d)
trap 'rm -rf "$work"' EXIT

if [ $# -gt 0 ]; then
    program=$1
else
    (cd "$top/crates/cells" && rt run -- > "$work/build.txt" 2>&1)
    program=$top/crates/cells/out/cells
fi
if [ ! -x "$program" ]; then
    echo "no program $program"
    exit 1
fi

PYTHONDONTWRITEBYTECODE=1 python3 "$top/bench/objects.py" spaces "$work/folders" || exit 1
TIMEFORMAT='%U %S'
runs=5
declare -A least
for folder in "$work"/folders/*/; do
    best=
    for _ in $(seq $runs); do
        spent=$({ time "$program" "$folder" script --pages 4096 > "$work/text.txt"; } 2>&1 | awk '{printf "%d", ($1 + $2) * 1000}')
        if [ -z "$best" ] || [ "$spent" -lt "$best" ]; then best=$spent; fi
    done
    least[$(basename "$folder")]=$best
    printf '%-12s %6d ms  %s\n' "$(basename "$folder")" "$best" "$(grep -v '^  ' "$work/text.txt" | tail -n 1 | cut -c 1-60)"
done

load=$((least[load-500] - least[read-500]))
clone=$((least[clone-500] - least[load-500]))
echo "a clone of 500 crates takes $clone ms, their load $load ms"
if [ $((2 * clone)) -gt $((3 * load)) ]; then
    echo "the clone takes more than 1.5 times the load"
    exit 1
fi
