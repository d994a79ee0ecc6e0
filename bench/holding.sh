#!/bin/bash
# Prints how long one `purge` takes, which finds out what is kept and removes nothing here: 1000 cells of ten
# links, each with a writable section of 64 words, and 64 tasks whose stacks are full of addresses. How long it
# takes to unload these cells at once. And how long one `purge` takes with 60 cells of 48,000 sections and 136,020 links.
#
#     bench/holding.sh [CELLS CELLAS]
#
# Without the two programs it proves and builds crates/cells and crates/cellas first.
set -u
top=$(cd "$(dirname "$0")/.." && pwd)
work=$(mktemp -d)
trap 'rm -rf "$work"' EXIT

if [ $# -gt 1 ]; then
    cells=$1
    cellas=$2
else
    for crate in cells cellas; do
        (cd "$top/crates/$crate" && rt run -- > "$work/build.txt" 2>&1)
    done
    cells=$top/crates/cells/out/cells
    cellas=$top/crates/cellas/out/cellas
fi

last=998
purges=20
mkdir "$work/s" "$work/d"

# The first crate fills its stack with addresses and then turns for ever; x2 is 0, so the whole stack counts.
cat > "$work/s/k#f.s" <<'SOURCE'
.text
.globl f::go
f::go: la t0,g0::x
la t2,f::go
mv t1,sp
li sp,0
f::fill: sd t0,0(t1)
addi t1,t1,-8
addi a0,a0,-1
bne a0,zero,f::fill
f::wait: j f::wait
SOURCE

# Each other crate has data, a function, and ten links to the next crates.
for i in $(seq 0 $last); do
    {
        echo ".data"
        echo ".globl g$i::x"
        echo "g$i::x: .zero 440"
        for next in $(seq $((i + 1)) $((i + 9))); do
            if [ "$next" -le $last ]; then echo ".quad g$next::x"; else echo ".quad 0"; fi
        done
        echo ".text"
        echo ".globl g$i::f"
        echo "g$i::f: ret"
        if [ "$i" -lt $last ]; then echo "call g$((i + 1))::f"; fi
    } > "$work/s/k#g$i.s"
done
for source in "$work"/s/*.s; do
    name=$(basename "$source" .s)
    "$cellas" "$work/s" "$name.s" > "$work/d/$name.o" || exit 1
done

loads() {
    echo 'load k f'
    for _ in $(seq 64); do echo 'spawn k f::go 2047'; done
    echo 'run 8300'
}

seconds() {
    "$cells" "$work/d" "$1" --pages 4096 > "$work/text.txt"
    TIMEFORMAT=%U
    { time "$cells" "$work/d" "$1" --pages 4096 > "$work/text.txt"; } 2>&1
}

loads > "$work/d/before"
{ loads; for _ in $(seq $purges); do echo purge; done; } > "$work/d/purges"
{ loads; for i in $(seq 64); do echo "kill $i"; done; } > "$work/d/killed"
{
    cat "$work/d/killed"
    printf 'unload k/f'
    for i in $(seq 0 $last); do printf ' k/g%d' "$i"; done
    echo
} > "$work/d/unload"

before=$(seconds before)
with=$(seconds purges)
if [ "$(grep -c 'ok purge removed -' "$work/text.txt")" != $purges ]; then
    echo 'unexpected text'
    exit 1
fi
awk -v a="$before" -v b="$with" -v n=$purges 'BEGIN { printf "one purge of 1000 cells and 64 tasks: %.4f s\n", (b - a) / n }'
killed=$(seconds killed)
all=$(seconds unload)
if ! tail -n 1 "$work/text.txt" | grep -q 'ok unload removed #1 #2 .* #1000$'; then
    echo 'unexpected text'
    exit 1
fi
awk -v a="$killed" -v b="$all" 'BEGIN { printf "an unload of 1000 cells at once: %.4f s\n", b - a }'

PYTHONDONTWRITEBYTECODE=1 python3 "$top/bench/objects.py" crowd "$work/crowds" || exit 1
rm -rf "$work/d"
mv "$work/crowds/crowd" "$work/d"
before=$(seconds script)
with=$(seconds purges)
if [ "$(grep -c 'ok purge removed -' "$work/text.txt")" != $purges ]; then
    echo 'unexpected text'
    exit 1
fi
awk -v a="$before" -v b="$with" -v n=$purges 'BEGIN { printf "one purge of 60 cells with 48,000 sections and 136,020 links: %.4f s\n", (b - a) / n }'
