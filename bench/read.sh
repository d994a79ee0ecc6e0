#!/bin/bash
# Prints the processor time that `cells` takes to read and link objects of just under 1 MiB, and
# objects of half that size, so that growth faster than the size shows. It fails only where `cells`
# ends otherwise than by a status of its own.
#
#     bench/read.sh [PROGRAM]
#
# Without PROGRAM it proves and builds crates/cells first.
set -u
top=$(cd "$(dirname "$0")/.." && pwd)
work=$(mktemp -d)
trap 'rm -rf "$work"' EXIT

if [ $# -gt 0 ]; then
    program=$1
else
    (cd "$top/crates/cells" && rt run -- > "$work/build.txt" 2>&1)
    program=$top/crates/cells/out/cells
fi
if [ ! -x "$program" ]; then
    echo "no program $program"
    exit 1
fi

PYTHONDONTWRITEBYTECODE=1 python3 "$top/bench/objects.py" large "$work" || exit 1
# Does the script of a folder, in at most 4 GB.
run() {
    (ulimit -v 4000000 && timeout 300 "$program" "$1" script)
}

TIMEFORMAT='%U %S'
failed=0
for folder in "$work"/*/; do
    name=$(basename "$folder")
    bytes=$(cat "$folder"/*.o | wc -c)
    spent=$({ time run "$folder" > "$work/text.txt" 2>&1; } 2>&1)
    status=$?
    printf '%-28s %8d bytes %7.0f ms  status %d  %s\n' "$name" "$bytes" "$(echo "$spent" | awk '{print ($1 + $2) * 1000}')" \
        "$status" "$(tail -n 1 "$work/text.txt" | cut -c 1-60)"
    if [ "$status" -gt 5 ]; then
        failed=1
    fi
done
exit $failed
