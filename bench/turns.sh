#!/bin/bash
# Prints how many turns of tasks `cells` does in a second of processor time: a loop of two jumps and sums, a loop with
# loads, stores and products, tasks that put out numbers, and 64 tasks one after another. Each script runs three times, and
# the least time counts. Where valgrind is installed, it prints too how many instructions a turn takes: those are the same
# whatever else the machine does.
# With another `cells` its runs stand between those of the first, and it prints how many times as many turns the first does
# in a second, and how many times as many instructions the other takes for one.
#
#     bench/turns.sh [CELLS CELLAS [OTHER]]
#
# Without programs it proves and builds crates/cells and crates/cellas first.
set -u
exec 3>&1
top=$(cd "$(dirname "$0")/.." && pwd)
work=$(mktemp -d)
trap 'rm -rf "$work"' EXIT

if [ $# -gt 1 ]; then
    cells=$1
    cellas=$2
else
    for crate in cells cellas; do
        (cd "$top/crates/$crate" && rt run -- > "$work/build.txt" 2>&1)
    done
    cells=$top/crates/cells/out/cells
    cellas=$top/crates/cellas/out/cellas
fi
other=${3:-}

runs=3
counted=50000

# commands COMMAND TIMES: the command so often
commands() {
    yes "$1" | head -n "$2"
}

# run PROGRAM NAME SCRIPT: each command is done, and no task ends or faults
run() {
    "$1" "$work/$2" "$3" > "$work/text.txt"
    if grep -q -v -e ' ok ' -e '^  out' -e 'ready$' "$work/text.txt" || grep -q -e 'done' -e 'fault' "$work/text.txt"; then
        { echo "$2: unexpected text"; head -5 "$work/text.txt"; } >&3
        exit 1
    fi
}

# seconds PROGRAM NAME: the processor time of a run of the script
seconds() {
    TIMEFORMAT=%U
    { time run "$1" "$2" script; } 2>&1
}

# instructions PROGRAM NAME SCRIPT: how many a run takes
instructions() {
    valgrind --tool=callgrind --callgrind-out-file=/dev/null "$1" "$work/$2" "$3" 2>&1 > "$work/text.txt" |
        awk '/I +refs/ { gsub(",", ""); print $NF }'
}

# one_turn PROGRAM NAME TASKS: how many one turn takes, by two scripts of which the second has two commands more
one_turn() {
    awk -v a="$(instructions "$1" "$2" few)" -v b="$(instructions "$1" "$2" more)" -v n=$((2 * counted * $3)) \
        'BEGIN { printf "%.1f", (b - a) / n }'
}

# least FILE: the least number of a file
least() {
    sort -g "$1" | head -1
}

# times A B: how many times A the number B is
times() {
    awk -v a="$1" -v b="$2" 'BEGIN { printf "%.2f", b / a }'
}

# prepare NAME: the object of $work/NAME.s
prepare() {
    mkdir -p "$work/$1"
    cp "$work/$1.s" "$work/$1/source"
    "$cellas" "$work/$1" source > "$work/k#f.o" || exit 1
    mv "$work/k#f.o" "$work/$1/k#f.o"
}

# measure NAME TASKS COMMAND TURNS TIMES: so many tasks, and then so often the command, which gives each so many turns
measure() {
    prepare "$1"
    { echo 'load k f'; commands 'spawn k f::go 0' "$2"; } > "$work/$1/begin"
    { cat "$work/$1/begin"; commands "$3 $4" "$5"; } > "$work/$1/script"
    { cat "$work/$1/begin"; commands "$3 $counted" 1; } > "$work/$1/few"
    { cat "$work/$1/begin"; commands "$3 $counted" 3; } > "$work/$1/more"
    rm -f "$work/own" "$work/others"
    for _ in $(seq $runs); do
        seconds "$cells" "$1" >> "$work/own"
        if [ -n "$other" ]; then seconds "$other" "$1" >> "$work/others"; fi
    done
    turns=$(($2 * $4 * $5))
    own=$(least "$work/own")
    printf '%-10s %9d turns %7s s  %s\n' "$1" $turns "$own" \
        "$(awk -v n=$turns -v s="$own" 'BEGIN { printf "%.1f million turns a second", n / s / 1000000 }')"
    if [ -n "$other" ]; then
        others=$(least "$work/others")
        echo "  the other $others s: $(times "$own" "$others") times as many turns a second"
    fi
    if $counting; then
        own=$(one_turn "$cells" "$1" "$2")
        echo "  $own instructions a turn"
        if [ -n "$other" ]; then
            others=$(one_turn "$other" "$1" "$2")
            echo "  the other $others: $(times "$own" "$others") times as many"
        fi
    fi
}

if command -v valgrind > /dev/null; then counting=true; else counting=false; fi

printf '.text\n.globl f::go\nf::go: addi a0,a0,1\nj f::go\n' > "$work/jumps.s"
measure jumps 1 'step 1' 100000 300

cat > "$work/mixed.s" << 'END'
.text
.globl f::go
f::go: la s0,f::data
f::loop: ld t0,0(s0)
addi t0,t0,1
sd t0,0(s0)
mul t1,t0,t0
srli t2,t1,7
xor t3,t2,t0
sw t3,8(s0)
lbu t4,9(s0)
sltu t5,t4,t3
blt zero,t0,f::loop
ebreak
.data
f::data: .quad 0, 0
END
measure mixed 1 'step 1' 100000 300

printf '.text\n.globl f::go\nf::go: addi a0,a0,1\nli a7,2\necall\nj f::go\n' > "$work/numbers.s"
measure numbers 1 'step 1' 100000 100

cp "$work/mixed.s" "$work/many.s"
counted=1000
measure many 64 run 10000 40
