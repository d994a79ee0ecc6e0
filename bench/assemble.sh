#!/bin/bash
# Prints how long `cellas` takes to assemble sources of just under 1 MiB, and sources of half that
# size, so that growth faster than the size shows, and how much memory it takes at its peak. It fails
# where `cellas` ends otherwise than by a status of its own, or takes more than 40 times the source,
# beside what it takes for an empty one.
#
#     bench/assemble.sh [PROGRAM]
#
# Without PROGRAM it proves and builds crates/cellas first.
set -u
top=$(cd "$(dirname "$0")/.." && pwd)
work=$(mktemp -d)
trap 'rm -rf "$work"' EXIT

if [ $# -gt 0 ]; then
    program=$1
else
    (cd "$top/crates/cellas" && rt run -- > "$work/build.txt" 2>&1)
    program=$top/crates/cellas/out/cellas
fi
if [ ! -x "$program" ]; then
    echo "no program $program"
    exit 1
fi

mkdir "$work/sources"
PYTHONDONTWRITEBYTECODE=1 python3 "$top/bench/sources.py" "$work/sources" || exit 1
# measured NAME: the processor time in seconds, the peak in kilobytes and the status of one run
measured() {
    python3 - "$program" "$work/sources" "$1" "$work/object" << 'PYTHON'
import os, subprocess, sys
program, folder, name, out = sys.argv[1:]
with open(out, "wb") as file:
    run = subprocess.Popen(["timeout", "300", program, folder, name], stdout=file, stderr=file)
    _, status, usage = os.wait4(run.pid, 0)
print("%.2f %d %d" % (usage.ru_utime + usage.ru_stime, usage.ru_maxrss, os.waitstatus_to_exitcode(status)))
PYTHON
}

most_times=40
: > "$work/sources/nothing.s"
read -r _ least _ < <(measured nothing.s)
rm "$work/sources/nothing.s"
failed=0
for source in "$work"/sources/*.s; do
    name=$(basename "$source")
    size=$(wc -c < "$source")
    read -r seconds peak status < <(measured "$name")
    times=$(awk -v p="$peak" -v l="$least" -v n="$size" 'BEGIN { printf "%.1f", (p - l) * 1024 / n }')
    printf '%-24s %8d bytes %6.2f s %7d kB, %5.1f times  status %d  %8d bytes written\n' "$name" "$size" "$seconds" \
        "$peak" "$times" "$status" "$(wc -c < "$work/object")"
    if [ "$status" -gt 5 ] || awk -v t="$times" -v m=$most_times 'BEGIN { exit !(t > m) }'; then
        echo '  FAILED'
        failed=1
    fi
done
exit $failed
