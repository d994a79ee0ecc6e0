#!/usr/bin/env python3
"""Runs in which memory runs out, at each place where it can.

    no_memory.py [PROGRAM ASSEMBLER]

Each of these runs is done once with each of its requests for memory refused, which a library that is loaded before the C
library does (it takes gcc to make it). Without the two words crates/cells and crates/cellas are proved and built first. Fails
where such a run doesn't end by the status for want of memory with a front of its transcript, or as it does with memory and
with its transcript whole.
"""

import os
import pathlib
import subprocess
import sys
import tempfile

TOP = pathlib.Path(__file__).resolve().parent.parent
EXAMPLES = [(name, ["examples/" + name, "script"]) for name in ("first", "swap", "tasks", "transfer", "unload", "plugins", "weak", "recover")]
RUNS = EXAMPLES + [("stored run", ["crates/cells/data/d", "s"]), ("generated", ["--generate", "3", "--seed", "0"])]
NO_MEMORY = 5
DONE = (0, 1)
LONGEST_WAIT = 10

GOES = """.text
.globl {0}
{0}: li a7,3
ecall
call {1}
li a7,0
ecall
"""
ANSWERS = """.text
.globl {0}
{0}: li a0,{1}
ret
"""
RETURNS = """.text
.globl {0}
{0}: ret
"""
MOVES = """.text
.globl c::f
c::f: ret
.globl c::mv
c::mv: la t0,s::v
li t1,9
sd t1,0(t0)
li a0,{0}
ret
"""

# Runs over crates that are assembled first: the source of each object file, and the script.
CRATES = {
    "two swaps under a task": (
        {
            "k#m.o": GOES.format("m::go", "o::f"),
            "k#o.o": ANSWERS.format("o::f", 1),
            "n#o-2.o": ANSWERS.format("o::f", 2),
            "n#m-2.o": ANSWERS.format("m::go", 9),
        },
        ["load k m", "spawn k m::go 0", "step 1 1", "swap k/m=n#m-2.o", "swap k/o=n#o-2.o", "step 1 100", "purge"],
    ),
    "two crates at once": (
        {
            "k#a.o": GOES.format("a::go", "b::in"),
            "k#b.o": ANSWERS.format("b::in", 5),
            "n#a-2.o": ANSWERS.format("a::go", 0),
            "n#b-2.o": RETURNS.format("b::other"),
        },
        ["load k a", "spawn k a::go 0", "step 1 1", "swap k/a=n#a-2.o k/b=n#b-2.o", "step 1 100", "purge"],
    ),
    "routines that fail": (
        {
            "k#s.o": ".data\n.globl s::v\ns::v: .quad 1\n",
            "k#c.o": RETURNS.format("c::f"),
            "n#c-2.o": MOVES.format(7),
            "n#c-3.o": MOVES.format(0),
        },
        [
            "load k s", "load k c", "swap k/c=n#c-2.o transfer c::mv", "dump 1 1", "swap k/c=n#c-3.o transfer c::mv budget 5",
            "swap k/c=n#c-3.o transfer c::mv budget 6", "dump 1 1",
        ],
    ),
    "names handed on": (
        {
            "k#app.o": ".text\n.globl app::go\napp::go: call log::put::h01\nret\n",
            "k#log-01.o": RETURNS.format("log::put::h01"),
            "n#log-02.o": RETURNS.format("log::put::h02"),
            "n#log-03.o": RETURNS.format("log::put::h03") + ".globl log::put::h04\nlog::put::h04: ret\n",
            "k#late.o": ".rodata\n.quad log::put::h01\n",
        },
        [
            "load k app", "swap k/log=n#log-02.o", "swap k/log=n#log-02.o reexport", "load k late", "find k log::put::h01",
            "swap k/log=n#log-03.o reexport",
        ],
    ),
}

SHIM = r"""
#define _GNU_SOURCE
#include <dlfcn.h>
#include <stdlib.h>
#include <unistd.h>

static long count, refused = -1;

static int refuses(void)
{
    if (refused < 0) {
        const char *number = getenv("REFUSED");
        refused = number ? atol(number) : 0;
    }
    return ++count == refused;
}

void *malloc(size_t size)
{
    static void *(*next)(size_t);
    if (!next) next = dlsym(RTLD_NEXT, "malloc");
    return refuses() ? NULL : next(size);
}

void *realloc(void *old, size_t size)
{
    static void *(*next)(void *, size_t);
    if (!next) next = dlsym(RTLD_NEXT, "realloc");
    return refuses() ? NULL : next(old, size);
}

void *aligned_alloc(size_t align, size_t size)
{
    static void *(*next)(size_t, size_t);
    if (!next) next = dlsym(RTLD_NEXT, "aligned_alloc");
    return refuses() ? NULL : next(align, size);
}

/* How many requests there were goes to the file that the caller opened. */
__attribute__((destructor)) static void tell(void)
{
    const char *file = getenv("COUNTED");
    if (file) dprintf(atoi(file), "%ld", count);
}
"""


def make_shim(folder):
    source, library = folder / "shim.c", folder / "shim.so"
    source.write_text("#include <stdio.h>\n" + SHIM)
    subprocess.run(["gcc", "-O1", "-shared", "-fPIC", "-o", library, source, "-ldl"], check=True)
    return str(library)


def write_crates(assembler, folder, sources, script):
    folder.mkdir()
    for name, source in sources.items():
        (folder / "source").write_text(source)
        done = subprocess.run([assembler, folder, "source"], stdout=subprocess.PIPE, check=True)
        (folder / name).write_bytes(done.stdout)
    (folder / "script").write_text("\n".join(script) + "\n")


def assembled_runs(assembler, folder):
    """The runs over crates that are assembled into folders of their own."""
    runs = []
    for number, (name, (sources, script)) in enumerate(CRATES.items()):
        write_crates(assembler, folder / str(number), sources, script)
        runs.append((name, [str(folder / str(number)), "script"]))
    return runs


def built(crate):
    folder = TOP / "crates" / crate
    subprocess.run(["rt", "run", "--"], cwd=folder, stdout=subprocess.DEVNULL, stderr=subprocess.DEVNULL)
    return str(folder / "out" / crate)


def run(program, words, shim, refused):
    """The status, the output, and how many requests for memory there were, where the run told it."""
    told, tell = os.pipe()
    settings = dict(os.environ, LD_PRELOAD=shim, REFUSED=str(refused), COUNTED=str(tell))
    done = subprocess.run([program, *words], stdout=subprocess.PIPE, env=settings, pass_fds=[tell], cwd=TOP, timeout=LONGEST_WAIT)
    os.close(tell)
    with os.fdopen(told) as file:
        return done.returncode, done.stdout, int(file.read() or 0)


def refuse_each(program, words, shim):
    """How many runs ended for want of memory, how many were whole, and what was wrong with the others."""
    status, text, requests = run(program, words, shim, 0)
    ended, whole = 0, 0
    bad = [] if status in DONE and requests > 0 else [f"with memory: status {status}, {requests} requests"]
    for number in range(1, requests + 1):
        now, front, _ = run(program, words, shim, number)
        if now == NO_MEMORY and text.startswith(front):
            ended += 1
        elif (now, front) == (status, text):
            whole += 1
        else:
            bad.append(f"request {number}: status {now}, {len(front)} bytes")
    return ended, whole, bad


def main(words):
    program, assembler = words if words else (built("cells"), built("cellas"))
    failed = False
    with tempfile.TemporaryDirectory() as folder:
        shim = make_shim(pathlib.Path(folder))
        for name, words in RUNS + assembled_runs(assembler, pathlib.Path(folder)):
            ended, whole, bad = refuse_each(program, words, shim)
            print(f"{name:22} {ended:6} runs ended for want of memory, {whole} whole, {len(bad)} otherwise", flush=True)
            for line in bad[:10]:
                print("    " + line)
            failed |= bool(bad)
    return 1 if failed else 0


if __name__ == "__main__":
    sys.exit(main(sys.argv[1:]))
