#!/usr/bin/env python3
"""Does what each row of docs/MESSAGES.md speaks of, and compares the lines that `cells` prints with the page.

    messages.py print [WORD]       prints each case with what came of it; with WORD, the cases whose names have it
    messages.py compare            names each line that was printed and isn't in the page, and each that only the page has

The programs are crates/cells/out/cells and crates/cellas/out/cellas, or what CELLS and CELLAS name. It needs Debian's
packages gcc-riscv64-unknown-elf, binutils-riscv64-unknown-elf, gcc and clang, and stands outside the gate.
"""
import os
import re
import shutil
import subprocess
import sys
import tempfile

TOP = os.path.dirname(os.path.dirname(os.path.abspath(__file__)))
PAGE = os.path.join(TOP, "docs", "MESSAGES.md")
CELLS = os.environ.get("CELLS", os.path.join(TOP, "crates", "cells", "out", "cells"))
CELLAS = os.environ.get("CELLAS", os.path.join(TOP, "crates", "cellas", "out", "cellas"))
GCC, CXX, AS = "riscv64-unknown-elf-gcc", "riscv64-unknown-elf-g++", "riscv64-unknown-elf-as"
CLANG = "clang --target=riscv64-unknown-elf"
MACHINE = "-march=rv64im -mabi=lp64"
PROFILE = MACHINE + " -mno-relax -mcmodel=medany -ffreestanding -fno-common -fno-pic -fno-stack-protector"
NEEDED = {
    CELLS: "./build makes it, or name one in CELLS",
    CELLAS: "./build makes it, or name one in CELLAS",
    GCC: "install Debian's package gcc-riscv64-unknown-elf",
    CXX: "install Debian's package gcc-riscv64-unknown-elf",
    AS: "install Debian's package binutils-riscv64-unknown-elf",
    "clang": "install Debian's package clang",
    "gcc": "install Debian's package gcc",
}
# What the page says of a line of the program that isn't an answer.
ALONE = r"usage: cells|no script|too large: |bad script line \d"
ANSWER = r"\d+ E\d+ |  t\d+ (turns|fault)"


def tool(words, ending, text, file):
    """Makes a file of a source by a compiler or an assembler."""
    source = os.path.join(os.path.dirname(file), "p" + ending)
    with open(source, "w") as out:
        out.write(text)
    subprocess.run([*words.split(), source, "-o", file], check=True, stderr=subprocess.DEVNULL)
    os.remove(source)


def c(text, flags=PROFILE, compiler=GCC):
    """An object of a C source, in which N(x) gives what is declared the symbol x."""
    quoted = r'__asm__("\"" #x "\"")' if compiler.endswith("gcc") else "__asm__(#x)"
    return lambda file: tool(f"{compiler} -O2 {flags} -c", ".c", f"#define N(x) {quoted}\n{text}\n", file)


def cxx(text, flags=PROFILE):
    return lambda file: tool(f"{CXX} -O2 -fno-exceptions {flags} -c", ".cc", text, file)


def gnu(text, flags=MACHINE + " -mno-relax"):
    return lambda file: tool(f"{AS} {flags}", ".s", text, file)


def s(text):
    """An object that `cellas` makes."""
    def make(file):
        with tempfile.TemporaryDirectory() as place:
            with open(os.path.join(place, "s"), "w") as out:
                out.write(text)
            with open(file, "wb") as out:
                subprocess.run([CELLAS, place, "s"], check=True, stdout=out)
    return make


def raw(data):
    def make(file):
        with open(file, "wb") as out:
            out.write(data)
    return make


def folder(file):
    os.mkdir(file)


def linked(text):
    return lambda file: tool(f"{GCC} {MACHINE} -nostdlib", ".c", text, file)


def archive(file):
    c("int x N(a::x);")(file + ".o")
    subprocess.run(["riscv64-unknown-elf-ar", "rcs", file, file + ".o"], check=True)
    os.remove(file + ".o")


def with_libgcc(make, file):
    """An object, and with it what it needs of gcc's own library."""
    make(file + ".o")
    subprocess.run([GCC, *PROFILE.split(), "-nostdlib", "-r", file + ".o", "-lgcc", "-o", file], check=True)
    os.remove(file + ".o")


def localized(make):
    """The same object, with the names that it doesn't export made LOCAL."""
    def make_and_localize(file):
        make(file)
        subprocess.run(["riscv64-unknown-elf-objcopy", "--localize-hidden", file], check=True)
    return make_and_localize


CASES = []


def case(name, files, script, words=(), shell="{program} {words}"):
    """A run of a script over files. The page shows the last line that it printed. A name may say how the run ends."""
    CASES.append((name, files, script, words, shell))


def run(files, script, words, shell):
    """The lines that a run wrote, and its status."""
    with tempfile.TemporaryDirectory() as place:
        for name, make in files.items():
            try:
                make(os.path.join(place, name))
            except subprocess.CalledProcessError as failed:
                return [f"not made: {' '.join(failed.cmd)}"], None
        if script is not None:
            with open(os.path.join(place, "script"), "w", newline="") as out:
                out.write(script)
        words = " ".join(words or [place, "script"]).replace("DIR", place)
        done = subprocess.run(["sh", "-c", shell.format(program=CELLS, words=words, dir=place)], capture_output=True)
        return done.stdout.decode().splitlines(), done.returncode


def load(name, maker, more="", **rest):
    case(name, {"k#p.o": maker}, "load k p\n" + more, **rest)


LEAF = s(".text\n.globl a::f\na::f: ret\n")
EMPTY = s(".text\nnop\n")


def refusals():
    two = {"k#a.o": LEAF, "k#b.o": s(".text\n.globl b::go\nb::go: call a::f\nret\n")}
    case("unknown namespace", two, "load plug a\n")
    case("unknown parent", {}, "ns n under plug\n")
    case("unknown task", {"k#a.o": LEAF}, "load k a\nspawn k a::f 0\nrun 100\nstep 1 1\n")
    case("unknown kill", two, "kill 1\n")
    case("unknown cell", {}, "deps 1\n")
    case("unknown section", {"k#a.o": c("int f(void) N(a::f); int f(void) { return 1; }")}, "load k a\ndump 1 9\n")
    case("unknown unload", two, "unload k/a\n")
    case("unknown old", two, "swap k/a=k#b.o\n")
    case("unknown file", two, "load k a\nswap k/a=b.o\n")
    case("taken", {}, "ns k under k\n")
    case("faulted", {"k#a.o": s(".text\n.globl a::f\na::f: ebreak\n")}, "load k a\nspawn k a::f 0\nrun 1\nstep 1 1\n")
    case("namespaces", {}, "".join(f"ns n{i} under k\n" for i in range(256)))
    many = {f"k#c{i}.o": EMPTY for i in range(1024)}
    case(
        "cells", many, "".join(f"load k c{i}\n" for i in range(1024)) + "swap k/c1=k#c1.o\n",
        ["DIR", "script", "--pages", "4096"])
    case("cell numbers", {"k#a.o": LEAF}, "load k a\n" + "swap k/a=k#a.o\n" * 65535)
    case("tasks", {"k#a.o": LEAF}, "load k a\n" + "spawn k a::f 0\n" * 65)
    case("task numbers", {"k#a.o": LEAF}, "load k a\n" + ("spawn k a::f 0\n" * 64 + "run 1\n") * 1023 + "spawn k a::f 0\n" * 64)
    case("no object", two, "load k counter\n")
    case("no object: capital", {"k#Queue.o": LEAF}, "load k queue\n")
    case("no object: underscore behind the dash", {"k#a-my_plug.o": LEAF}, "load k a\n")
    case("no object: no namespace in the name", {"a.o": LEAF}, "load k a\n")
    case("no object: namespace of another", two, "ns plug under k\nload plug a\n")
    case("ambiguous", {"k#a.o": LEAF, "k#a-2.o": LEAF}, "load k a\n")
    case("ambiguous: dash", {"k#my-plug.o": LEAF, "k#my-other.o": LEAF}, "load k my\n")
    case("ambiguous need", {"k#a.o": LEAF, "k#a-2.o": LEAF, "k#b.o": two["k#b.o"]}, "load k b\n")
    case("duplicate stem", two, "load k a\nload k a\n")
    plain = c("int helper(void) { return 1; }")
    case("duplicate name", {"k#a.o": plain, "k#b.o": plain}, "load k a\nload k b\n")
    case("duplicate by a swap", two | {"n#a-2.o": LEAF}, "load k b\nload k a\nswap k/b=n#a-2.o\n")
    call = "long f(void) N({0}); long go(long) N(p::go); long go(long x) {{ return f() + x; }}"
    load("missing: no crate", c("long helper(void); long go(long) N(p::go); long go(long x) { return helper() + x; }"))
    load("missing: no file", c(call.format("stats::sum")))
    case("missing: not defined", {"k#a.o": LEAF, "k#p.o": c(call.format("a::g"))}, "load k p\n")
    case(
        "fine: loaded plain name",
        {
            "k#libc.o": c("long helper(void) { return 1; }"),
            "k#p.o": c("long helper(void); long go(long) N(p::go); long go(long x) { return helper() + x; }")},
        "load k libc\nload k p\n")
    case("missing: namespace", {"plug#a.o": LEAF, "k#p.o": c(call.format("a::f"))}, "ns plug under k\nload k p\n")
    case("missing: swap", two | {"n#a.o": s(".text\n.globl a::g\na::g: ret\n")}, "load k b\nswap k/a=n#a.o\n")
    soft = "double n N(p::n) = 1.5; long go(long) N(p::go); long go(long x) { n = n * 2 + 4; return n; }"
    load("fine: soft float, brought", lambda file: with_libgcc(c(soft), file), "spawn k p::go 0\nrun 10000\n")
    load(
        "fine: soft float of clang, brought", lambda file: with_libgcc(c(soft, compiler=CLANG), file),
        "spawn k p::go 0\nrun 10000\n")
    load(
        "missing: quotes", c("long go(long x) __asm__(\"\\\"p::go\\\"\"); long go(long x) { return x; }", compiler=CLANG),
        "spawn k p::go 0\n")
    load("missing: soft float", c("double go(double) N(p::go); double go(double x) { return x + 1; }"))
    load(
        "missing: memcpy",
        c("struct s { char b[400]; }; void go(struct s*, struct s*) N(p::go); void go(struct s *a, struct s *b) { *a = *b; }"))
    copying = c(
        "struct s { char b[400]; }; struct s one N(p::one), two N(p::two); long go(long) N(p::go); long go(long x) { "
        "one.b[9] = x; two = one; return two.b[9]; }")
    body = (
        "void *memcpy(void *to, const void *from, unsigned long n) { for (unsigned long i = 0; i < n; i++) ((char *)to)[i] = "
        "((const char *)from)[i]; return to; }")
    own, by_clang = c(body), c(body, compiler=CLANG)
    case("fine: memcpy of our own", {"k#mem.o": own, "k#p.o": copying}, "load k mem\nload k p\nspawn k p::go 7\nrun 10000\n")
    case("fine: memcpy by clang", {"k#mem.o": by_clang, "k#p.o": copying}, "load k mem\nload k p\nspawn k p::go 7\nrun 10000\n")
    load("missing: memset", c("void f(char *) N(q::f); void go(void) N(p::go); void go(void) { char b[4000] = { 0 }; f(b); }"))
    with_copies = {
        "k#p.o": lambda file: with_libgcc(c(soft), file),
        "k#o.o": lambda file: with_libgcc(c(soft.replace("p::", "o::")), file)}
    case("duplicate libgcc", with_copies, "load k p\nload k o\n")
    case("fine: two with libgcc", {name: localized(make) for name, make in with_copies.items()}, "load k p\nload k o\n")
    load("missing: no M", c("long go(long) N(p::go); long go(long x) { return x * x; }", PROFILE.replace("rv64im", "rv64i")))
    load(
        "missing: stack protector",
        c(
            "void use(char *) N(p::use); void use(char *b) { b[0] = 1; } long go(long) N(p::go); long go(long x) { char "
            "b[64]; use(b); __asm__ volatile(\"\"::\"r\"(b):\"memory\"); return b[x]; }",
            PROFILE.replace("-fno-stack-protector", "-fstack-protector-all")))
    load(
        "missing: save and restore",
        c(
            "long f(long) N(p::f); long go(long) N(p::go); __attribute__((noinline)) long f(long x) { __asm__ "
            "volatile(\"\"); return x; } long go(long x) { long y = f(x); return f(y) + x; }",
            PROFILE + " -msave-restore"))
    load("missing: profile", c("long go(long) N(p::go); long go(long x) { return x; }", PROFILE + " -pg"))
    load("no entry: plain name", c("long go(long x) { return x; }"), "spawn k p::go 0\n")
    load(
        "no entry: static", c("static __attribute__((used)) long go(long) N(p::go); static long go(long x) { return x; }"),
        "spawn k p::go 0\n")
    load("no entry: data", c("long n N(p::n) = 1;"), "spawn k p::n 0\n")
    load("no entry: not loaded", LEAF, "spawn k a::go 0\n")
    case("no entry: routine", two | {"n#a.o": LEAF}, "load k a\nswap k/a=n#a.o transfer a::carry\n")
    case("no entry: brought routine", two | {"n#a.o": LEAF}, "load k b\nswap k/a=n#a.o transfer b::go\n")
    load("exhausted: section", s(".bss\n.zero 16777216\n"), words=["DIR", "script"])
    case(
        "exhausted: stack", {"k#a.o": s(".text\n.globl a::f\na::f: ret\n.bss\n.zero 49152\n")}, "load k a\nspawn k a::f 0\n",
        ["DIR", "script", "--pages", "16"])
    case(
        "exhausted: routine", {"k#a.o": s(".text\n.globl a::f\na::f: ret\n.bss\n.zero 49152\n"), "n#a.o": LEAF},
        "load k a\nswap k/a=n#a.o transfer a::f\n", ["DIR", "script", "--pages", "16"])
    code = "long n N(p::n); long go(long) N(p::go); long go(long x) { return n + x; }"
    load("overflow: medlow", c(code, PROFILE.replace("medany", "medlow")), words=["DIR", "script", "--base", "0x80000000"])
    load(
        "overflow: 32 bits", gnu('.data\n.globl "p::n"\n"p::n": .word "p::n"\n'),
        words=["DIR", "script", "--base", "0x100000000"])
    case(
        "overflow: jal",
        {"k#a.o": s(".text\n.globl a::f\na::f: jal ra,b::f\n"), "k#b.o": s(".text\n.zero 1046000\n.globl b::f\nb::f: ret\n")},
        "load k a\n")
    case(
        "overflow: swap",
        {
            "k#a.o": s(".text\n.globl a::f\na::f: jal ra,b::f\n"), "k#b.o": s(".text\n.globl b::f\nb::f: ret\n"),
            "n#b.o": s(".text\n.zero 1040000\n.globl b::f\nb::f: ret\n"), "k#z.o": s(".bss\n.zero 1000000\n")},
        "load k a\nload k z\nswap k/b=n#b.o\n")
    case(
        "overflow: load",
        {
            "k#a.o": s(".text\n.weak b::f\n.globl a::f\na::f: jal ra,b::f\nb::f: ret\n"),
            "k#b.o": s(".text\n.zero 1040000\n.globl b::f\nb::f: ret\n"), "k#z.o": s(".bss\n.zero 1000000\n")},
        "load k a\nload k z\nload k b\n")
    load(
        "overflow: weak name", s(".text\n.weak b::f\nla a0,b::f\nret\n"), words=["DIR", "script", "--base", "0x80001000"])
    case("torn", two | {"n#a.o": LEAF}, "load k b\nspawn k b::go 0\nstep 1 1\nswap k/a=n#a.o\n")
    default = s(".text\n.weak a::f\n.globl b::go\nb::go: call a::f\nret\na::f: ret\n")
    case("torn: load", {"k#b.o": default, "k#a.o": LEAF}, "load k b\nspawn k b::go 0\nstep 1 1\nload k a\n")
    routine = "{} long mv(void) N(a::mv); long mv(void) {{ {} }} long f(void) N(a::f); long f(void) {{ return 2; }}"
    case("transfer: code", two | {"n#a.o": c(routine.format("", "return 1;"))}, "load k a\nswap k/a=n#a.o transfer a::mv\n")
    case(
        "transfer: trap", two | {"n#a.o": c(routine.format("", "*(volatile long *)64 = 1; return 0;"))},
        "load k a\nswap k/a=n#a.o transfer a::mv\n")
    case(
        "transfer: budget", two | {"n#a.o": c(routine.format("", "for (;;) __asm__ volatile(\"\");"))},
        "load k a\nswap k/a=n#a.o transfer a::mv\n")
    copy = "long d[{0}] N(a::d); long f(void) N(a::f); long f(void) {{ return {1}; }} "
    mover = copy + (
        "long mv(void) N(a::mv); long mv(void) {{ static const char name[] = \"a::d\"; long *old = old_place(name, 4); "
        "for (long i = 0; i < {0}; i++) d[i] = old[i]; return 0; }}")
    header = f'#include "{TOP}/examples/plugins/cells.h"\n'
    for name, words in [("fine: copy of 128 KiB", 16 << 10), ("transfer: copy of 256 KiB", 32 << 10)]:
        for compiler in [GCC, CLANG]:
            two_sizes = {
                "k#a.o": c(copy.format(words, 1), compiler=compiler),
                "n#a.o": c(header + mover.format(words, 2), compiler=compiler)}
            case(f"{name}, {compiler}", two_sizes, "load k a\nswap k/a=n#a.o transfer a::mv budget 100000\n")
    state = header + "struct d { struct state state; } d CRATE(a, d) = { { 1, INSIDE } };\n"
    begun = {
        "k#a.o": c(state.replace("INSIDE", "1")),
        "n#a.o": c(state.replace("INSIDE", "0") + "ROUTINE(a, mv, d, 1, struct d, old) { (void)old; return 0; }")}
    case("transfer: a task is at the state", begun, "load k a\nswap k/a=n#a.o transfer a::mv\n")
    old = c(
        "long f(void) N(a::f); long g(void) N(a::g); long f(void) { return 1; } long g(void) { for (;;) __asm__ "
        "volatile(\"\"); }")
    case("held: task", {"k#a.o": old}, "load k a\nspawn k a::g 0\nstep 1 5\nunload k/a\n")
    case("held: cell", two, "load k b\nunload k/a\n")
    optional = s(".data\n.weak a::f\n.quad a::f\n")
    case("held: weak", {"k#b.o": optional, "k#a.o": LEAF}, "load k b\nload k a\nunload k/a\n")
    reg = c("long (*hook)(void) N(r::hook); long f(void) N(a::f); long go(void) N(r::go); long go(void) { hook = f; return 0; }")
    load_reg = "load k r\nspawn k r::go 0\nrun 100\n"
    case("held: pointer in data", {"k#a.o": LEAF, "k#r.o": reg}, load_reg + "swap k/a=k#a.o strict\n")
    case("held: strict", {"k#a.o": old, "n#a.o": old}, "load k a\nspawn k a::g 0\nstep 1 5\nswap k/a=n#a.o strict\n")


def objects():
    code = "extern long n N(q::n); long f(long) N(q::f); long go(long) N(p::go); long go(long x) { return f(x) + n; }"
    data = {"k#q.o": c("long n N(q::n) = 1; long f(long) N(q::f); long f(long x) { return x; }")}

    def compiled(name, text, flags=PROFILE, compiler=GCC, more=""):
        case(name, data | {"k#p.o": c(text, flags, compiler)}, "load k p\n" + more)

    compiled("fine", code)
    compiled("fine: clang", code, compiler=CLANG)
    for level in ["-O0", "-O1", "-O3", "-Os", "-Og"]:
        compiled("fine: " + level, code, PROFILE + " " + level)
        compiled("fine: clang " + level, code, PROFILE + " " + level, CLANG)
    compiled("fine: debug", code, PROFILE + " -g")
    compiled("fine: function sections", code, PROFILE + " -ffunction-sections -fdata-sections")
    compiled("fine: tables for unwinding", code, PROFILE + " -fasynchronous-unwind-tables")
    compiled("fine: clang unwinding", code, PROFILE + " -fasynchronous-unwind-tables", CLANG)
    compiled("plain gcc", code, "")
    compiled("plain clang", code, "", CLANG)
    compiled("lp64d", code, PROFILE.replace("rv64im ", "rv64imafd ").replace("lp64 ", "lp64d "))
    compiled("lp64f", code, PROFILE.replace("rv64im ", "rv64imf ").replace("lp64 ", "lp64f "))
    compiled("compressed", code, PROFILE.replace("rv64im ", "rv64imac "))
    compiled("compressed clang", code, PROFILE.replace("rv64im ", "rv64imac "), CLANG)
    compiled("rv32", code, PROFILE.replace("rv64im ", "rv32im ").replace("lp64 ", "ilp32 "))
    compiled("host gcc", "long go(long x) { return x; }", "", "gcc")
    load("linked program", linked("void _start(void) {}"))
    load("archive", archive)
    load("source in its place", raw(b".text\n" * 20))
    load("empty", raw(b""))
    load(
        "cut off",
        raw(
            b"\x7fELF\x02\x01\x01"
            + bytes(9)
            + b"\x01\x00\xf3\x00\x01\x00\x00\x00"
            + bytes(16)
            + b"\0\x10"
            + bytes(6)
            + bytes(10)
            + b"\x40\x00\x0a\x00\x09\x00"))
    compiled("lto", code, PROFILE + " -flto -frandom-seed=1")
    compiled("lto clang", code, PROFILE + " -flto", CLANG)
    compiled("fine: PIC", code, PROFILE.replace("-fno-pic", "-fPIC"))
    compiled("fine: PIC clang", code, PROFILE.replace("-fno-pic", "-fPIC"), CLANG)
    compiled("fine: PIE", code, PROFILE.replace("-fno-pic", "-fPIE"))
    compiled("fine: PIE clang", code, PROFILE.replace("-fno-pic", "-fPIE"), CLANG)
    compiled("fine: no -fno-pic", code, PROFILE.replace("-fno-pic", ""))
    compiled("fine: no -fno-pic clang", code, PROFILE.replace("-fno-pic", ""), CLANG)
    compiled(
        "fine: weak declaration",
        "extern long n __attribute__((weak)); long go(long) N(p::go); long go(long x) { return x + (&n ? n : 0); }")
    compiled("TLS", "__thread long n N(p::n) = 1; long go(long) N(p::go); long go(long x) { return n += x; }")
    compiled("fine: weak", "long go(long) N(p::go); __attribute__((weak)) long go(long x) { return x; }")
    compiled(
        "fine: weak need",
        "long f(long) N(q::f); __attribute__((weak)) long f(long); long go(long) N(p::go); long go(long x) { return f ? f(x) "
        ": 0; }")
    compiled("constructor", "__attribute__((constructor)) static void start(void) { __asm__ volatile(\"\"); }")
    compiled("destructor", "__attribute__((destructor)) static void stop(void) { __asm__ volatile(\"\"); }")
    cpp = "extern \"C\" long go(long) __asm__(\"\\\"p::go\\\"\");\n"
    load(
        "C++: inline function",
        cxx(
            cpp
            + "inline __attribute__((noinline)) long twice(long x) { __asm__ volatile(\"\"); return 2 * x; } long go(long "
            "x) { return twice(x); }"))
    load(
        "C++: template",
        cxx(
            cpp
            + "template <class T> __attribute__((noinline)) T twice(T x) { __asm__ volatile(\"\"); return 2 * x; } long "
            "go(long x) { return twice(x); }"))
    load(
        "C++: global object",
        cxx(
            "struct S { S(); long n; }; S::S() : n(1) { __asm__ volatile(\"\"); } static S one; "
            + cpp
            + "long go(long x) { return one.n + x; }"))
    load(
        "C++: virtual",
        cxx(
            "struct B { virtual long f(long x); }; long B::f(long x) { return x; } "
            + cpp
            + "long go(long x) { B b; B *p = &b; __asm__ volatile(\"\" : \"+r\"(p)); return p->f(x); }"))
    load(
        "C++: static in function",
        cxx("long init() __asm__(\"\\\"q::f\\\"\"); " + cpp + "long go(long x) { static long n = init(); return n + x; }"))
    static = "long init() __asm__(\"\\\"q::f\\\"\"); " + cpp + "long go(long x) { static long n = init(); return n + x; }"
    case("fine: C++ static in function", data | {"k#p.o": cxx(static, PROFILE + " -fno-threadsafe-statics")}, "load k p\n")
    load(
        "fine: C++ static inline",
        cxx(
            cpp
            + "static inline __attribute__((noinline)) long twice(long x) { __asm__ volatile(\"\"); return 2 * x; } long "
            "go(long x) { return twice(x); }"))
    load("C++: new", cxx(cpp + "long *keep; long go(long x) { keep = new long(x); return 0; }"))
    load("C++: delete", cxx("namespace { struct T { long n; }; } " + cpp + "long go(long x) { delete (T *)x; return 0; }"))
    own_delete = "void operator delete(void *, unsigned long) noexcept {} namespace { struct T { long n; }; } "
    load(
        "fine: C++: delete of our own", cxx(own_delete + cpp + "long go(long x) { delete (T *)x; return 7; }"),
        "spawn k p::go 0\nrun 100\n")
    ends = (
        "namespace { struct T { long n; T() : n(1) { __asm__ volatile(\"\"); } ~T() { __asm__ volatile(\"\"); } }; } "
        + cpp + "long go(long x) { static T one; return one.n + x; }")
    handle, exit = "void *__dso_handle; ", "int __cxa_atexit(void (*)(void *), void *, void *) { return 0; } "
    for name, own in [("C++: destructor", ""), ("C++: destructor, handle", handle), ("fine: C++: destructor", handle + exit)]:
        load(name, cxx(f'extern "C" {{ {own}}} ' + ends, PROFILE + " -fno-threadsafe-statics"), "")
    pure = (
        "namespace { struct B { virtual long f(long) BODY B(); }; __attribute__((noinline)) B::B() { __asm__ volatile(\"\" :: "
        "\"r\"(this) : \"memory\"); } struct D : B { long f(long x) { return x + 1; } }; } extern \"C\" long go(long) "
        "__asm__(NAME); long go(long x) { D d; B *p = &d; __asm__ volatile(\"\" : \"+r\"(p)); return p->f(x); }")
    quoted = pure.replace("NAME", "\"\\\"p::go\\\"\"")
    load("fine: C++: pure virtual", cxx(quoted.replace("BODY", "= 0;"), PROFILE + " -fno-rtti"))
    load(
        "fine: C++: virtual with a body", cxx(quoted.replace("BODY", "{ __builtin_trap(); }"), PROFILE + " -fno-rtti"),
        "spawn k p::go 4\nrun 100\n")
    by_clang = pure.replace("NAME", "\"p::go\"").replace("BODY", "= 0;")
    load(
        "C++: pure virtual, clang",
        lambda file: tool(f"{CLANG} -O2 -fno-exceptions -fno-rtti {PROFILE} -c", ".cc", by_clang, file))
    load("C++: throw", cxx(cpp + "long go(long x) { if (x > 3) throw 5; return x; }", PROFILE + " -fexceptions"))
    load("C++: without extern C", cxx("long go(long x) { return x; }"), more="spawn k go 1\n")
    anonymous = (
        "namespace { template <class T> __attribute__((noinline)) T twice(T x) { __asm__ volatile(\"\"); return 2 * x; } "
        "struct B { virtual long f(long x); }; long B::f(long x) { return x; } } ")
    load(
        "fine: C++: anonymous",
        cxx(
            anonymous + cpp + "long go(long x) { B b; B *p = &b; __asm__ volatile(\"\" : \"+r\"(p)); return p->f(twice(x)); }",
            PROFILE + " -fno-rtti"),
        "spawn k p::go 4\nrun 100\n")
    load("fine: C++: plain", cxx(cpp + "long go(long x) { return x + 1; }"), more="find k p::go\n")
    compiled("common", "long n;", PROFILE.replace("-fno-common", "-fcommon"))
    compiled("alignment", "char n[8] N(p::n) __attribute__((aligned(8192)));")
    compiled("fine: alignment 4096", "char n[8] N(p::n) __attribute__((aligned(4096)));")
    compiled("large", "char n[20 << 20] N(p::n);")
    compiled("fine: relax", code, PROFILE.replace("-mno-relax", ""))
    compiled("relax and alignment", code, PROFILE.replace("-mno-relax", "-falign-functions=16"))
    load("ifunc", gnu('.text\n.globl f\n.type f, %gnu_indirect_function\nf: ret\n'))
    load("absolute", gnu('.globl n\n.set n, 5\n'))
    compiled("retain", "long n N(p::n) __attribute__((used, retain)) = 1;")
    compiled("unicode", "long größe;", PROFILE)
    load("writable code", gnu('.section .both,"awx",@progbits\nnop\n'))
    load("long name", gnu(f'.globl "{"n" * 1025}"\n.data\n"{"n" * 1025}": .word 0\n'))
    case("fine: as -fpic", data | {"k#p.o": gnu('.text\nla t0, "q::n"\n', MACHINE + " -mno-relax -fpic")}, "load k p\n")
    compiled(
        "fine: switch table",
        "long go(long) N(p::go); long go(long x) { switch (x) { case 0: return 3; case 1: return 9; case 2: return 11; case "
        "3: return -8; case 4: return 6; case 5: return 77; case 6: __asm__ volatile(\"\"); return 1; } return 0; }")


def faults():
    go = "long go(long) N(p::go); long go(long x) "
    spawn = "spawn k p::go 64\nrun 10000\n"

    def fault(name, text, flags=PROFILE, compiler=GCC, more=spawn):
        load(name, c(text, flags, compiler), more)

    fault("null", go + "{ return *(volatile long *)0; }")
    fault("store to null", go + "{ *(volatile long *)0 = 1; return 0; }")
    fault("store to a constant", "const long n N(p::n) = 1; " + go + "{ *(volatile long *)&n = x; return n; }")
    fault(
        "store to a sealed pointer",
        "long n N(p::n); long *at N(p::at) = &n; " + go + "{ __asm__ volatile(\"\"); at = (long *)x; return 0; }")
    fault("recursion", go + "{ volatile long y = x; long z = y ? go(y + 1) : 0; return z + y; }")
    fault("load-align", go + "{ return *(volatile long *)(x + 1); }")
    fault("store-align", go + "{ *(volatile long *)(x + 1) = 0; return 0; }")
    fault("fine: packed", "struct __attribute__((packed)) s { char c; long n; } s N(p::s) = { 0, 9 }; " + go + "{ return s.n; }")
    fault("cast pointer", "char b[16] N(p::b); " + go + "{ return *(volatile int *)(b + x - 63); }")
    fault("builtin trap", go + "{ __builtin_trap(); }")
    fault("builtin trap clang", go + "{ __builtin_trap(); }", compiler=CLANG)
    fault("call of no function", go + "{ return ((long (*)(void))x)(); }")
    fault("call of an odd address", go + "{ return ((long (*)(void))(x + 2))(); }")
    fault("call of data", "long n N(p::n) = 1; " + go + "{ return ((long (*)(void))&n)(); }")
    fault("call of null", go + "{ long (*volatile f)(void) = 0; return f() + 1; }")
    fault("falls off", go + "{ __asm__ volatile(\"nop\"); __builtin_unreachable(); }")
    fault("unknown call", go + "{ register long n __asm__(\"a7\") = 64; __asm__ volatile(\"ecall\" :: \"r\"(n)); return 0; }")
    fault(
        "transfer call in a task",
        go + "{ register long n __asm__(\"a7\") = 4; __asm__ volatile(\"ecall\" :: \"r\"(n)); return 0; }")
    fault(
        "atomics", "long n N(p::n); " + go + "{ return __atomic_fetch_add(&n, 1, __ATOMIC_SEQ_CST); }",
        PROFILE.replace("rv64im ", "rv64ima "))
    fault(
        "float with lp64", "double n N(p::n) = 1.5; " + go + "{ n = n * 2; return n; }",
        PROFILE.replace("rv64im ", "rv64imfd "))
    fault("fence.i", go + "{ __asm__ volatile(\"fence.i\"); return 0; }", PROFILE.replace("rv64im ", "rv64im_zifencei "))
    fault(
        "cycle counter", go + "{ long n; __asm__ volatile(\"rdcycle %0\" : \"=r\"(n)); return n; }",
        PROFILE.replace("rv64im ", "rv64im_zicsr "))
    fault("bit manipulation", go + "{ return x & ~(x << 1); }", PROFILE.replace("rv64im ", "rv64im_zbb "))
    fault("compressed by hand", go + "{ __asm__ volatile(\".half 0x0001\\n.half 0x8082\"); return 0; }")
    fault("compressed clang", go + "{ __asm__ volatile(\".option rvc\\nc.nop\\n.option norvc\"); return 0; }", PROFILE, CLANG)
    fault(
        "float clang", "double n N(p::n) = 1.5; " + go + "{ n = n * 2; return n; }", PROFILE.replace("rv64im ", "rv64imfd "),
        CLANG)
    load("misaligned code", gnu('.text\n.globl "p::go"\n"p::go": j 1f\n.half 1\n1: ret\n'), spawn)
    load("ends inside its code", gnu('.text\n.globl "p::go"\n"p::go": nop\n'), spawn)
    fault("divides by zero", go + "{ return x / (x - 64); }")
    fault("twice", go + "{ __builtin_trap(); }", more="spawn k p::go 0\nrun 100\nrun 100\ntasks\n")


def lines():
    case("status 2: no words", {}, "", shell="{program}")
    case("status 2: one word", {}, "", ["DIR"])
    case("status 2: help", {}, "", ["--help"])
    case("status 2: wrong base", {}, "", ["DIR", "script", "--base", "268435456"])
    case("status 2: base with capitals", {}, "", ["DIR", "script", "--base", "0x8000000A"])
    case("status 2: few pages", {}, "", ["DIR", "script", "--pages", "8"])
    case("status 2: generate without seed", {}, "", ["--generate", "5"])
    case("status 2: script in capitals", {}, "", ["DIR", "Script"])
    case("status 2: script with a path", {}, "", ["DIR", "DIR/script"], shell="cd {dir} && {program} . ./script")
    case("status 3: no such folder", {}, "", ["DIR/nowhere", "script"])
    case("status 3: folder is a file", {}, "", ["DIR/script", "script"])
    case("status 3: script is a folder", {"script": folder}, None)
    case("status 3: object is a folder", {"k#a.o": folder}, "map\n")
    case("status 3: object is a dangling link", {"k#a.o": lambda file: os.symlink("nowhere", file)}, "map\n")
    case(
        "status 3: name isn't UTF-8", {"x": lambda file: open(os.fsencode(os.path.dirname(file)) + b"/\xff", "w").close()},
        "map\n")
    case("status 2: many names", {}, "map\n", shell="cd {dir} && seq 70000 | xargs touch && {program} {words}")
    case("status 2: many files", {}, "map\n", shell="cd {dir} && seq -f k#a%.0f.o 1025 | xargs touch && {program} {words}")
    case("status 2: long script", {}, "#" * 1048577)
    case("status 2: long object", {"k#a.o": c("char n[2 << 20] N(a::n) = { 1 };")}, "map\n")
    case("status 2: long objects", {f"k#a{i}.o": raw(bytes(1 << 20)) for i in range(65)}, "map\n")
    case("status 2: CR LF", {}, "map\r\n")
    case("status 2: byte order mark", {}, "\ufeffmap\n")
    for text in [
        "Load k a", "load a", "load k/a", "load k a.o", "load k#a.o", "step 1 100001", "step t1 5", "run 10001", "run",
        "spawn k a::f", "spawn k a::f -1", "spawn k a::f 0xFF", "spawn k a::f 007", "unload a", "unload k/a k/a", "unload",
        "swap a=k#b.o", "swap k/a k#b.o", "swap k/a=k#b.o budget 5", "swap k/a=k#b.o strict reexport",
        "swap k/a=k#b.o transfer a::f budget 100001", "swap k/a=k#b.o k/a=k#c.o", "map # all", "dump #1 1", "dump 1.1",
        "deps #1", "ns n", "ns n under k/a", "ns My under k", "// map", "find k", "exit", "load k my-plug",]:
        case("bad line: " + text, {}, text + "\n")
    case("status 0: all accepted", {}, "map\n")
    case("status 4: standard output is full", {}, "map\n", shell="{program} {words} >/dev/full")
    case("status 4: standard output is closed", {}, "map\n", shell="{program} {words} >&-")
    case(
        "status 4: pipe is closed", {"k#a.o": LEAF}, "load k a\n" + "map\n" * 5000,
        shell="bash -c '{program} {words} | head -n 1 >/dev/null; exit ${{PIPESTATUS[0]}}'")
    case(
        "status 5: memory", {"k#a.o": LEAF}, "load k a\n", ["DIR", "script", "--pages", "4096"],
        shell="ulimit -v 16000; {program} {words}")
    case("status 5: tables that share bytes", {"k#a.o": shared_tables}, "load k a\n")


def shared_tables(file):
    """Many RELA sections over the same bytes."""
    gnu("".join(f'.section .d{i},"aw",@progbits\n.zero 2408\n' for i in range(300)) + '.data\n' + ".dword x\n" * 300)(file)
    with open(file, "rb") as source:
        data = bytearray(source.read())
    at, count = int.from_bytes(data[40:48], "little"), int.from_bytes(data[60:62], "little")
    heads = [at + 64 * i for i in range(count)]
    rela = next(h for h in heads if data[h + 4] == 4)
    firsts = [i for i, h in enumerate(heads) if data[h + 4] == 1 and data[h + 32 : h + 34] == b"\x68\x09"][:300]
    extra = bytearray()
    for number in firsts:
        row = data[rela : rela + 64]
        row[44:48] = number.to_bytes(4, "little")
        extra += row
    data += bytes(-len(data) % 8)
    new = len(data)
    data += data[at : at + 64 * count] + extra
    data[40:48] = new.to_bytes(8, "little")
    data[60:62] = (count + len(firsts)).to_bytes(2, "little")
    with open(file, "wb") as out:
        out.write(data)


def has_wanted_end(name, status):
    """Whether a case that says how it ends ended so."""
    wanted = re.match(r"status (\d)", name)
    return status == int(wanted[1]) if wanted else status == 0 if name.startswith("fine") else status is not None


def compare():
    """Names the lines that aren't on both sides; answers whether there are any."""
    with open(PAGE) as file:
        page = file.read()
    rows = re.findall(r"^\| .* \|$", page, re.MULTILINE)
    shown = {code for row in rows for code in re.findall(r"`([^`]+)`", row) if re.match(f"{ALONE}|{ANSWER}", code)}
    printed, wrong = set(), []
    for name, *rest in CASES:
        text, status = run(*rest)
        last = text[-1].replace("|", "\\|") if text else ""
        if name == "lto":
            # Some names in such an object are made anew each time.
            last = re.sub(r"\d+$", "A", last)
        printed.add(last)
        if not has_wanted_end(name, status):
            wrong.append(f"{name}: ended with {status}: {last}")
        elif name.startswith("bad line: "):
            if f"`{name.removeprefix('bad line: ')}`" not in page:
                wrong.append(f"{name}: this line isn't in the page")
        elif not name.startswith("fine") and re.match(f"{ALONE}|{ANSWER}", last) and last not in shown:
            wrong.append(f"{name}: isn't in the page: {last}")
    wrong += [f"in the page alone: {line}" for line in sorted(shown - printed)]
    print(*wrong, f"{len(CASES)} cases, {len(shown)} lines of the page, {len(wrong)} wrong", sep="\n")
    return bool(wrong)


def main():
    for name, package in NEEDED.items():
        if not shutil.which(name):
            sys.exit(f"messages.py: there is no {name}: {package}")
    refusals()
    objects()
    faults()
    lines()
    if sys.argv[1:2] == ["print"]:
        for name, *rest in CASES:
            if not sys.argv[2:] or sys.argv[2] in name:
                text, status = run(*rest)
                print(f"== {name}: status {status}", *text[-2:], sep="\n   ", flush=True)
    elif sys.argv[1:] == ["compare"]:
        sys.exit(compare())
    else:
        sys.exit(__doc__)


main()
