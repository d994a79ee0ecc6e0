#!/bin/bash
# Prints how long one swap of one cell takes, among 500 and among 1000 cells of ten fields each and with 64 tasks: tasks
# that have just begun, and tasks whose stacks are full of addresses. The cell that is swapped has ten users' fields and
# ten of its own. And how long a script takes with 900 loads and then 2,000 swaps of a cell that these 900 name in 1,800
# fields. And how long a load and a swap take by which the same fields are bound to a name and let go again, where these 900
# could do without it; then both of 1,800 fields of ten cells, whose links stand in front of those of 1,000 other cells; and one
# load and one unload among 1000 cells of which none has a WEAK symbol. It fails where one swap takes more than 3 ms of processor
# time, with twice the cells more than 2.3 times as long, the script with 2,000 swaps more than a second, or binding and letting
# go more than 1.3 times as long as leading the same fields elsewhere. Each script runs five times, and the least time counts: the
# same run takes up to twice as long where something else shares the processor. Where valgrind is installed, it says too how many
# instructions a swap takes, which nothing beside it changes.
#
#     bench/swaps.sh [CELLS CELLAS]
#
# Without the two programs it proves and builds crates/cells and crates/cellas first.
set -u
top=$(cd "$(dirname "$0")/.." && pwd)
work=$(mktemp -d)
trap 'rm -rf "$work"' EXIT

if [ $# -gt 1 ]; then
    cells=$1
    cellas=$2
else
    for crate in cells cellas; do
        (cd "$top/crates/$crate" && rt run -- > "$work/build.txt" 2>&1)
    done
    cells=$top/crates/cells/out/cells
    cellas=$top/crates/cellas/out/cellas
fi

swaps=1000
counted=100
runs=5
most_ms=3
most_times=2.3
most_seconds=1
most_weak=1.3
failed=0

# at_most WHAT NUMBER LIMIT: says so where the number is above the limit
at_most() {
    if awk -v n="$2" -v most="$3" 'BEGIN { exit !(n > most) }'; then
        echo "  FAILED: $1 $2, at most $3"
        failed=1
    fi
}

# assemble FOLDER NAME: the object file of that name, of the source on standard input
assemble() {
    mkdir -p "$1"
    cat > "$work/source.s"
    "$cellas" "$work" source.s > "$1/$2" || exit 1
}

# The task fills its stack with addresses, as often as its argument says, and then turns for ever; x2 is 0 then, so the
# whole stack counts.
turning() {
    cat << 'SOURCE'
.text
.globl f::go
f::go: beq a0,zero,f::wait
la t0,g0::x
mv t1,sp
li sp,0
f::fill: sd t0,0(t1)
addi t1,t1,-8
addi a0,a0,-1
bne a0,zero,f::fill
f::wait: j f::wait
SOURCE
}

# linked NUMBER: data, a function, and ten links to the crates before it
linked() {
    echo ".data"
    echo ".globl g$1::x"
    echo "g$1::x: .zero 440"
    for back in $(seq 9); do
        if [ "$back" -le "$1" ]; then echo ".quad g$(($1 - back))::x"; else echo ".quad g$1::x"; fi
    done
    echo ".text"
    echo ".globl g$1::f"
    echo "g$1::f: ret"
    if [ "$1" -gt 0 ]; then echo "call g$(($1 - 1))::f"; else echo "call g0::f"; fi
}

# begun CELLS WORDS: the load of so many cells, and 64 tasks, each of which puts so many words on its stack
begun() {
    echo 'load k f'
    echo "load k g$(($1 - 2))"
    for _ in $(seq 64); do echo "spawn k f::go $2"; done
    echo 'run 8300'
}

# alternate CELL TIMES: so many swaps of a cell, between its file in the folder and the same under another name
alternate() {
    for _ in $(seq $(($2 / 2))); do
        echo "swap k/$1=n#$1-2.o"
        echo "swap k/$1=k#$1.o"
    done
}

# seconds FOLDER SCRIPT: the least processor time of a run, of which the transcript goes to $work/text.txt
seconds() {
    TIMEFORMAT='%U %S'
    for _ in $(seq $runs); do
        { time "$cells" "$1" "$2" --pages 4096 > "$work/text.txt"; } 2>&1 | awk '{ print $1 + $2 }'
    done | sort -g | head -1
}

# instructions FOLDER SCRIPT: how many instructions a run takes
instructions() {
    valgrind --tool=callgrind --callgrind-out-file=/dev/null "$cells" "$1" "$2" --pages 4096 2>&1 > "$work/text.txt" |
        awk '/I +refs/ { gsub(",", ""); print $NF }'
}

# million FOLDER BEFORE WITH SWAPS: the millions of instructions of one swap, by two scripts of which the second has so many more
million() {
    awk -v a="$(instructions "$1" "$2")" -v b="$(instructions "$1" "$3")" -v n="$4" 'BEGIN { printf "%.2f", (b - a) / n / 1e6 }'
}

# swapped TIMES FIELDS: sees that so many swaps were done, and that each of them patched so many fields
swapped() {
    if [ "$(grep -c "ok swap .* patched $2 removed #.* kept -" "$work/text.txt")" != "$1" ]; then
        echo 'unexpected text'
        exit 1
    fi
}

# one_swap CELLS WORDS: puts the milliseconds of one swap into $one, and its millions of instructions into $count
one_swap() {
    begun "$1" "$2" > "$crowd/before"
    { begun "$1" "$2"; alternate g100 $swaps; } > "$crowd/swaps"
    before=$(seconds "$crowd" before)
    with=$(seconds "$crowd" swaps)
    swapped $swaps 20
    one=$(awk -v a="$before" -v b="$with" -v n=$swaps 'BEGIN { printf "%.3f", (b - a) * 1000 / n }')
    printf 'one swap among %4d cells, and 64 tasks with %4d words on their stacks: %8.3f ms\n' "$1" "$2" "$one"
    at_most ms "$one" $most_ms
    if $counting; then
        { begun "$1" "$2"; alternate g100 $counted; } > "$crowd/swaps"
        count=$(million "$crowd" before swaps $counted)
        echo "  $count million instructions"
    fi
}

# growth FEW MANY: how many times the first the second is
growth() {
    awk -v a="$1" -v b="$2" 'BEGIN { printf "%.2f", b / a }'
}

if command -v valgrind > /dev/null; then counting=true; else counting=false; fi

crowd=$work/crowd
turning | assemble "$crowd" 'k#f.o'
for i in $(seq 0 998); do linked "$i" | assemble "$crowd" "k#g$i.o"; done
cp "$crowd/k#g100.o" "$crowd/n#g100-2.o"
for words in 0 2047; do
    one_swap 500 $words
    half=$one
    half_count=${count:-}
    one_swap 1000 $words
    times=$(growth "$half" "$one")
    echo "  with twice the cells $times times as long"
    at_most times "$times" $most_times
    if $counting; then echo "  and $(growth "$half_count" "$count") times as many instructions"; fi
done

# a crate whose name others need, and the same under another name
provider() {
    printf '.data\n.globl x::v\nx::v: .quad 1\n' | assemble "$1" 'k#x.o'
    cp "$1/k#x.o" "$1/n#x-2.o"
}

# users FOLDER CRATES FIELDS WEAK: so many crates u1, u2 .. with so many fields each that name x::v, and their loads in `loads`; the
# last is `.weak x::v`, where they can do without it
users() {
    { printf '.rodata\n%s\n' "$4"; for _ in $(seq "$3"); do echo '.quad x::v'; done; } | assemble "$1" 'k#u1.o'
    for i in $(seq 2 "$2"); do cp "$1/k#u1.o" "$1/k#u$i.o"; done
    for i in $(seq "$2"); do echo "load k u$i"; done > "$1/loads"
}

# led FOLDER: a swap that leads 1,800 fields elsewhere, after the loads. Puts the seconds of the loads and of 2,000 such swaps
# with them into $loads and $all, the milliseconds of one into $moved, and its millions of instructions into $moved_count
led() {
    { cat "$1/loads"; alternate x 2000; } > "$1/all"
    { cat "$1/loads"; alternate x $counted; } > "$1/some"
    loads=$(seconds "$1" loads)
    all=$(seconds "$1" all)
    swapped 2000 1800
    moved=$(awk -v a="$loads" -v b="$all" 'BEGIN { printf "%.4f", (b - a) / 2 }')
    if $counting; then moved_count=$(million "$1" loads some $counted); fi
}

# come_and_go TIMES: so many loads of the crate that has the name, and as many swaps of it for one without the name
come_and_go() {
    for _ in $(seq "$1"); do
        echo 'load k x'
        echo 'swap k/x=n#e.o'
        echo 'unload k/e'
    done
}

# bound FOLDER: loads and swaps that bind 1,800 weak fields and let them go, after the loads, against leading them elsewhere
bound() {
    printf '' | assemble "$1" 'n#e.o'
    { cat "$1/loads"; come_and_go 1000; } > "$1/all"
    { cat "$1/loads"; come_and_go $((counted / 2)); } > "$1/some"
    loads=$(seconds "$1" loads)
    all=$(seconds "$1" all)
    swapped 1000 1800
    if [ "$(grep -c 'ok load .* patched 1800$' "$work/text.txt")" != 1000 ]; then
        echo 'unexpected text'
        exit 1
    fi
    one=$(awk -v a="$loads" -v b="$all" 'BEGIN { printf "%.4f", (b - a) / 2 }')
    times=$(growth "$moved" "$one")
    echo "1,000 loads and 1,000 swaps that bind 1,800 weak fields and let them go: $one ms each, $times times as long as leading them elsewhere"
    if $counting; then
        count=$(million "$1" loads some $counted)
        times=$(growth "$moved_count" "$count")
        echo "  $count million instructions each, $times times as many"
        at_most 'times the instructions' "$times" $most_weak
    else
        at_most times "$times" $most_weak
    fi
}

provider "$work/users"
users "$work/users" 900 2 ''
led "$work/users"
awk -v a="$loads" -v b="$all" 'BEGIN { printf "900 loads: %.3f s; with 2,000 swaps of 1,800 fields: %.3f s, %.3f ms each\n", a, b, (b - a) / 2 }'
at_most seconds "$all" $most_seconds
if $counting; then echo "  $moved_count million instructions each"; fi
provider "$work/weak"
users "$work/weak" 900 2 '.weak x::v'
bound "$work/weak"

# behind FOLDER: the loads of 1,000 other crates come after those of the users
behind() {
    cp "$crowd/k#f.o" "$crowd"/k#g*.o "$1"
    printf 'load k f\nload k g998\n' >> "$1/loads"
}

provider "$work/front"
users "$work/front" 10 180 ''
behind "$work/front"
led "$work/front"
echo "a swap of 1,800 fields of 10 crates, with 1,000 others behind them: $moved ms"
if $counting; then echo "  $moved_count million instructions"; fi
provider "$work/front_weak"
users "$work/front_weak" 10 180 '.weak x::v'
behind "$work/front_weak"
bound "$work/front_weak"

printf '.data\n.globl y::v\ny::v: .quad g0::x\n' | assemble "$crowd" 'k#y.o'
begun 1000 0 > "$crowd/before"
{ begun 1000 0; for _ in $(seq $swaps); do echo 'load k y'; echo 'unload k/y'; done; } > "$crowd/loads"
before=$(seconds "$crowd" before)
with=$(seconds "$crowd" loads)
awk -v a="$before" -v b="$with" -v n=$swaps 'BEGIN { printf "a load and an unload among 1000 cells without WEAK symbols: %.3f ms\n", (b - a) * 1000 / n }'
if $counting; then
    { begun 1000 0; for _ in $(seq $counted); do echo 'load k y'; echo 'unload k/y'; done; } > "$crowd/loads"
    echo "  $(million "$crowd" before loads $counted) million instructions"
fi
exit $failed
