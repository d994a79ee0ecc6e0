#!/usr/bin/env python3
"""Prints how long `cells` takes for turns of tasks, loads, questions, swaps and a generated run, and how many instructions.

    bench/cases.py PROGRAM [OTHER]

A case is a script in which something is done so often, and the same script without it. What one of them takes is the
difference of the two, by the least processor time of five runs each, divided by how often it is done. Where valgrind is
installed, instructions are counted in the same way: those are the same whatever else the machine does.

With OTHER, which has to write the same, its runs stand between those of PROGRAM, and each case ends with how many times as
much the other takes.
"""

import os
import resource
import shutil
import struct
import subprocess
import sys
import tempfile

import objects
from objects import ALLOC, EXECINSTR, R_64, R_PCREL_HI20, R_PCREL_LO12_I, WRITE, Section, Symbol, image

RUNS = 5

ADDI_A0_A0_1, JUMP_BACK_4 = 0x00150513, 0xFFDFF06F

# auipc s0, addi s0, and a loop: ld, addi, sd, mul, srli, xor, sw, lbu, sltu, blt
MIXED = [
    0x00000417, 0x00040413, 0x00043283, 0x00128293, 0x00543023, 0x02528333, 0x00735393, 0x0053CE33, 0x01C42423,
    0x00944E83, 0x01CEBF33, 0xFC504EE3, 0x00100073,
]


class Case:
    """`make(n)` is the script in which it is done n times. `words` stand in the place of a folder and a script."""

    def __init__(self, name, files, make, timed, counted, words=None):
        self.name = name
        self.files = files
        self.make = make
        self.timed = timed
        self.counted = counted
        self.words = words


def code(words):
    return b"".join(struct.pack("<I", word) for word in words)


def jumps():
    text = Section(".text", EXECINSTR, code([ADDI_A0_A0_1, JUMP_BACK_4]), align=4)
    return image([text], [Symbol("f::go", 1)])


def mixed():
    entries = [(0, R_PCREL_HI20, 3, 0), (4, R_PCREL_LO12_I, 1, 0)]
    text = Section(".text", EXECINSTR, code(MIXED), entries, align=4)
    data = Section(".data", WRITE, bytes(16))
    return image([text, data], [Symbol("high", 1, binding=objects.LOCAL), Symbol("f::go", 1), Symbol("f::data", 2)])


def turns(n):
    return "load k f\nspawn k f::go 0\n" + "step 1 100000\n" * n


def one_of_ten_links(n, count):
    """Links to the next ten crates, and a name for those before it."""
    names = ["g%d::x" % (n + k) for k in range(1, 11) if n + k < count]
    entries = [(8 + 8 * k, R_64, 2 + k, 0) for k in range(len(names))]
    data = Section(".data", WRITE, bytes(88), entries)
    return image([data], [Symbol("g%d::x" % n, 1)] + [Symbol(name, 0) for name in names])


def questions(n):
    return "load k g0\n" + "deps 500\nusers 500\npurge\n" * n


def value():
    return image([Section(".data", WRITE, struct.pack("<Q", 1))], [Symbol("x::v", 1)])


def user():
    return image([Section(".rodata", 0, bytes(16), [(0, R_64, 1, 0), (8, R_64, 1, 0)])], [Symbol("x::v", 0)])


def swaps(n):
    loads = "".join("load k u%d\n" % k for k in range(1, 901))
    return loads + "".join("swap k/x=%s\n" % ("k#x.o" if k % 2 else "n#x-2.o") for k in range(n))


def chain(last):
    return "".join("ns n%d under %s\n" % (k, "n%d" % (k - 1) if k > 1 else "k") for k in range(1, last + 1))


def once(script):
    return lambda n: script if n else "# nothing is loaded\n"


def cases():
    many = {"k#c%d.o" % k: objects.crate_of_many(k, 1000) for k in range(1000)}
    linked = {"k#g%d.o" % k: one_of_ten_links(k, 1000) for k in range(1000)}
    users = {"k#u%d.o" % k: user() for k in range(1, 901)}
    return [
        Case("100,000 turns of sums and jumps", {"k#f.o": jumps()}, turns, 300, 2),
        Case("100,000 turns of loads, stores and products", {"k#f.o": mixed()}, turns, 300, 2),
        Case("a generated run of 400 crates", {}, None, 1, 1, ["--generate", "400", "--seed", "0"]),
        Case("a load of 1,000 crates of three links", many, once("load k c0\n"), 1, 1),
        Case("a load of 1,000 definitions into the last of 255 namespaces", {"n255#a.o": objects.definitions(1000)},
             once(chain(255) + "load n255 a\n"), 1, 1),
        Case("deps, users and purge among 1,000 crates of ten links", linked, questions, 1000, 20),
        Case("a swap that leads 1,800 fields elsewhere", dict(users, **{"k#x.o": value(), "n#x-2.o": value()}), swaps, 2000, 100),
    ]


class Folder:
    """The files of a case, and its scripts by how often it is done."""

    def __init__(self, top, number, case):
        self.case = case
        self.path = os.path.join(top, str(number))
        os.mkdir(self.path)
        for name, data in case.files.items():
            with open(os.path.join(self.path, name), "wb") as out:
                out.write(data)

    def words(self, often):
        if self.case.words:
            return self.case.words
        script = os.path.join(self.path, "script-%d" % often)
        if not os.path.exists(script):
            with open(script, "w") as out:
                out.write(self.case.make(often))
        return [self.path, os.path.basename(script), "--pages", "4096"]


def output(program, words):
    done = subprocess.run([program] + words, stdout=subprocess.PIPE, stderr=subprocess.STDOUT)
    if done.returncode not in (0, 1):
        sys.exit("status %d of %s" % (done.returncode, " ".join(words)))
    return done.stdout


def spent():
    """The processor time of all children so far. Of their two parts alone some systems only know the ticks."""
    usage = resource.getrusage(resource.RUSAGE_CHILDREN)
    return usage.ru_utime + usage.ru_stime


def seconds(program, words):
    before = spent()
    subprocess.run([program] + words, stdout=subprocess.DEVNULL)
    return spent() - before


def instructions(program, words):
    command = ["valgrind", "--tool=callgrind", "--callgrind-out-file=/dev/null", program] + words
    said = subprocess.run(command, stdout=subprocess.DEVNULL, stderr=subprocess.PIPE, text=True).stderr
    line = next(line for line in said.splitlines() if "refs" in line)
    return int(line.split()[-1].replace(",", ""))


def each(measured, folder, often):
    """What one of them takes, by a measure of words."""
    if folder.case.words:
        return measured(folder.words(often))
    return (measured(folder.words(often)) - measured(folder.words(0))) / often


def least_times(programs, folder):
    """For each program the least time of one of them, in microseconds; the programs take turns."""
    often = folder.case.timed
    least = {}
    for _ in range(RUNS):
        for program in programs:
            for words in [folder.words(often), folder.words(0)]:
                key = (program, tuple(words))
                least[key] = min(seconds(program, words), least.get(key, 1e9))
    return [1e6 * each(lambda words: least[(program, tuple(words))], folder, often) for program in programs]


def compare(programs, folder):
    for often in (folder.case.counted, folder.case.timed):
        texts = [output(program, folder.words(often)) for program in programs]
        if any(text != texts[0] for text in texts):
            sys.exit("the two programs don't write the same: %s" % folder.case.name)


def show(unit, values):
    line = "  %-14s" % unit + "".join("%16s" % "{:,.1f}".format(value) for value in values)
    if len(values) == 2:
        line += "  %.2f times" % (values[1] / values[0])
    print(line, flush=True)


def main():
    programs = [os.path.abspath(program) for program in sys.argv[1:3]]
    if not programs:
        sys.exit(__doc__)
    with tempfile.TemporaryDirectory() as top:
        for number, case in enumerate(cases()):
            folder = Folder(top, number, case)
            compare(programs, folder)
            print(case.name)
            show("microseconds", least_times(programs, folder))
            if shutil.which("valgrind"):
                show("instructions", [each(lambda words: instructions(program, words), folder, case.counted) for program in programs])


if __name__ == "__main__":
    main()
