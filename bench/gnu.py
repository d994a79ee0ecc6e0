#!/usr/bin/env python3
"""Compares what `cells` links with what GNU ld links, outside the gate.

The sources of bench/gnu are compiled by gcc or clang and assembled by GNU as; `cells` loads the objects and
says where each section is; ld links the same objects at those places; then the bytes of each loaded
section have to be equal, but for sections of zeros that have none in the file. Of position-independent code, which loads
addresses from slots, the sections have to be equal but for where the slots stand, which ld puts elsewhere, and what is
loaded from them has to be.

    gnu.py compare [PROGRAM]    the compilers that are there, both code models, -O0 and -O2, with -fno-pic and with
                                -fPIC; and then what `weak` compares
    gnu.py weak [PROGRAM]       weak symbols: before a crate comes that has their names for good, and behind it
    gnu.py store [PROGRAM]      writes the stored run of crates/cells, and says where each line of it comes from

The stored run begins with the script of examples/plugins, and the first lines that it has to print are the transcript that is
kept there. This is the program's own, and so are the answers to the loads and the map behind it; nothing else says what they
have to be. The bytes of the sections then come from ld, what the tasks put out from qemu, as tasks.py says, and one refusal
at the end from here.

PROGRAM is a built `cells`, crates/cells/out/cells unless it is said. It needs Debian's packages
gcc-riscv64-unknown-elf, binutils-riscv64-unknown-elf and clang, and `store` needs qemu-user. Where there is no GNU as or ld, clang
assembles and ld.lld links: `compare`, of clang's objects and without the source `kinds`, and `weak` need no more than these two.

What a call of a weak name that nobody has becomes isn't compared: both linkers write something else there than its address, 0.
Neither is which of several defaults counts: a linker takes the first for all, and `cells` each crate's own.
"""
import glob
import itertools
import os
import re
import shutil
import struct
import subprocess
import sys
import tempfile

import tasks

HERE = os.path.dirname(os.path.abspath(__file__))
TOP = os.path.dirname(HERE)
SOURCES = os.path.join(HERE, "gnu")
STORED = os.path.join(TOP, "crates", "cells")
EXAMPLE = os.path.join(TOP, "examples", "plugins")
TOOL = "riscv64-unknown-elf-"
TARGET = ["-march=rv64im", "-mabi=lp64", "-mno-relax"]
C_FLAGS = TARGET + ["-ffreestanding", "-fno-common", "-fno-stack-protector"]
COMPILERS = {
    "gcc": [TOOL + "gcc", "-fno-section-anchors"] + C_FLAGS,
    "clang": ["clang", "--target=riscv64-unknown-elf"] + C_FLAGS,
}
# Each needs those before it.
STEMS = ["queue", "shop", "kinds"]
WEAK = ["spare", "user", "name"]
ASSEMBLERS = [[TOOL + "as"] + TARGET, ["clang", "--target=riscv64-unknown-elf", "-c"] + TARGET]
LINKERS = [[TOOL + "ld", "--no-relax", "-nostdlib", "--no-warn-rwx-segments"], ["ld.lld"]]
NOBITS, ALLOC = 8, 2
RELA, ENTRY = 4, 24
GOT_HI20, PCREL_LO12_I = 20, 24
# Where ld puts its slots: away from the memory of `cells`, and in reach of the code there.
SLOTS = 0x20000000


def compile_c(compiler, stem, flags, file):
    """An object of a compiler."""
    source = os.path.join(SOURCES, stem + ".c")
    subprocess.run(COMPILERS[compiler] + flags + ["-c", source, "-o", file], check=True)


def first_there(tools):
    """The first of these command lines whose program there is."""
    return next((words for words in tools if shutil.which(words[0])), tools[0])


def compilers():
    """The compilers that are there."""
    return [name for name, words in COMPILERS.items() if shutil.which(words[0])]


def compared_stems():
    """The sources that are compared. The assembler of clang 14 drops the name of a `.reloc` of `kinds`, which is left out then."""
    return STEMS if shutil.which(ASSEMBLERS[0][0]) else STEMS[:-1]


def assemble(stem, file):
    """An object of GNU as, or of another assembler."""
    source = os.path.join(SOURCES, stem + ".s")
    subprocess.run(first_there(ASSEMBLERS) + [source, "-o", file], check=True)


def read(path):
    with open(path, "rb") as file:
        return file.read()


def headers(data):
    """The rows of the section headers: name, type, flags, address, offset, size, link, info, alignment, size of an entry."""
    offset, = struct.unpack_from("<Q", data, 40)
    count, = struct.unpack_from("<H", data, 60)
    return [struct.unpack_from("<IIQQQQIIQQ", data, offset + 64 * i) for i in range(count)]


def sections(path):
    """The sections of an object by number: name, type, flags, offset, size."""
    data = read(path)
    rows = headers(data)
    names, = struct.unpack_from("<H", data, 62)
    table = rows[names][4]

    def name(at):
        return data[table + at : data.index(b"\0", table + at)].decode()

    return {i: (name(r[0]), r[1], r[2], r[4], r[5]) for i, r in enumerate(rows)}


def transcript(program, folder, lines, status=0):
    with open(os.path.join(folder, "script"), "w") as file:
        file.write("\n".join(lines) + "\n")
    done = subprocess.run([program, folder, "script"], stdout=subprocess.PIPE)
    if done.returncode != status:
        sys.exit(f"gnu.py: {program} ended with status {done.returncode}, and not {status}, and printed\n{done.stdout.decode()}")
    return done.stdout.decode()


def places(text):
    """What the last `map` shows: cell, file, section, start, for each section that isn't empty."""
    rows = []
    for line in text.rpartition(" ok map\n")[2].split("\n"):
        cell = re.fullmatch(r"  #(\d+) \S+ attached (\S+)", line)
        if cell:
            number, file = int(cell[1]), cell[2]
        section = re.fullmatch(r"    (\d+) r[xwo] ([0-9a-f]+) (\d+)", line)
        if section and int(section[3]):
            rows.append((number, file, int(section[1]), int(section[2], 16)))
    return rows


def link(folder, rows):
    """The bytes that ld has in each section that isn't zeros, at the same places."""
    script, objects = [], []
    for cell, file, section, start in rows:
        name = sections(os.path.join(folder, file))[section][0]
        script.append('  .c%ds%d 0x%x : { KEEP("%s"(%s)) }' % (cell, section, start, file, name))
        if file not in objects:
            objects.append(file)
    script.append("  .got 0x%x : { *(.got .got.plt) }" % SLOTS)
    with open(os.path.join(folder, "places.ld"), "w") as file:
        file.write("SECTIONS {\n%s\n}\n" % "\n".join(script))
    words = first_there(LINKERS) + ["-e", "0", "-T", "places.ld", "-o", "out"]
    subprocess.run(words + objects, cwd=folder, check=True)
    linked = {name: row for name, *row in sections(os.path.join(folder, "out")).values()}
    data = read(os.path.join(folder, "out"))
    found = {}
    for cell, _, section, _ in rows:
        kind, _, offset, size = linked[".c%ds%d" % (cell, section)]
        if kind != NOBITS:
            found[cell, section] = data[offset : offset + size]
    return found


def dump_lines(start, data):
    """The lines of `dump` for these bytes."""
    for at in range(0, len(data), 16):
        yield "  %08x %s" % (start + at, data[at : at + 16].hex(" "))


def dumped(number, cell, section, start, data):
    """What `dump` answers on a line of the script."""
    return ["%d ok dump #%d.%d" % (number, cell, section)] + list(dump_lines(start, data))


def with_dumps(program, folder, lines, status=0):
    """The script that also maps and dumps, and the transcript that ld's bytes ask for."""
    lines = lines + ["map"]
    begun = transcript(program, folder, lines, status)
    rows = places(begun)
    found = link(folder, rows)
    expected = begun.splitlines()
    for cell, _, section, start in rows:
        if (cell, section) in found:
            lines = lines + ["dump %d %d" % (cell, section)]
            expected += dumped(len(lines), cell, section, start, found[cell, section])
    return lines, "\n".join(expected) + "\n"


def build(folder, stem, compiler, *flags):
    file = os.path.join(folder, "k#%s.o" % stem)
    if os.path.exists(os.path.join(SOURCES, stem + ".c")):
        compile_c(compiler, stem, list(flags), file)
    else:
        assemble(stem, file)


def sections_equal(program, folder, lines):
    """How many sections have bytes, and whether these are the linker's, behind these lines."""
    lines, expected = with_dumps(program, folder, lines)
    return sum(line.startswith("dump") for line in lines), transcript(program, folder, lines) == expected


def is_wrong(name, count, what, equal):
    """Prints what came of a comparison; whether it is nothing, or different."""
    print(name, count, what, "equal" if equal and count else "DIFFERENT")
    return not equal or not count


def compare_weak(program):
    """Prints a line for the crates without the last, and one for all. It fails where a transcript differs."""
    failed = False
    for stems in (WEAK[:-1], WEAK):
        with tempfile.TemporaryDirectory() as folder:
            for stem in stems:
                assemble(os.path.join("weak", stem), os.path.join(folder, "k#%s.o" % stem))
            count, equal = sections_equal(program, folder, ["load k " + stem for stem in stems])
            failed |= is_wrong("weak symbols of " + " ".join(stems), count, "sections", equal)
    return failed


def loads_from_slots(path, section):
    """Where a section of an object loads from slots: for the offset of each upper part those of the loads that go with it."""
    data = read(path)
    rows = headers(data)
    found = {}
    for row in rows:
        if row[1] != RELA or row[7] != section:
            continue
        symbols = rows[row[6]][4]
        entries = [struct.unpack_from("<QIIq", data, row[4] + at) for at in range(0, row[5], ENTRY)]
        found |= {offset: [] for offset, kind, _, _ in entries if kind == GOT_HI20}
        for offset, kind, number, _ in entries:
            label, = struct.unpack_from("<Q", data, symbols + 24 * number + 8)
            if kind == PCREL_LO12_I and label in found:
                found[label].append(offset)
    return found


def signed(number, bits):
    return number - (1 << bits) if number >> (bits - 1) else number


def word_at(data, at):
    return int.from_bytes(data[at : at + 4], "little")


def without_slots(data, start, loads, held):
    """A section that starts there without the addresses of slots, and what its loads find in them. `held` tells what eight
    bytes of the memory are."""
    bare, values = bytearray(data), []
    for upper, lows in sorted(loads.items()):
        high = start + upper + signed(word_at(data, upper) & 0xFFFFF000, 32)
        bare[upper : upper + 4] = (word_at(data, upper) & 0xFFF).to_bytes(4, "little")
        for low in lows:
            values.append(held(high + signed(word_at(data, low) >> 20, 12)))
            bare[low : low + 4] = (word_at(data, low) & 0xFFFFF).to_bytes(4, "little")
    return bytes(bare), values


def held_in(parts):
    """What eight bytes of the memory are, which these parts of it with their starts have."""
    def held(at):
        for start, data in parts:
            if start <= at and at + 8 <= start + len(data):
                return data[at - start : at - start + 8]
        return None
    return held


def dumps_in(text):
    """The bytes of each section that is dumped, by cell and section."""
    found, key = {}, None
    for line in text.splitlines():
        begun = re.fullmatch(r"\d+ ok dump #(\d+)\.(\d+)", line)
        if begun:
            key = int(begun[1]), int(begun[2])
            found[key] = b""
        elif key and line.startswith("  "):
            found[key] += bytes.fromhex(line[11:])
        else:
            key = None
    return found


def is_own(path, number):
    """Whether the object itself has that section to load. One of slots isn't its own, and may have the number of one that isn't
    loaded."""
    rows = sections(path)
    return number in rows and bool(rows[number][2] & ALLOC)


def compare_slots(program, folder, load):
    """How many loads from slots there are, and whether they find with `cells` what they find with ld, in sections that are
    equal but for where the slots stand."""
    lines = [load, "map"]
    rows = places(transcript(program, folder, lines))
    dumped_rows = dumps_in(transcript(program, folder, lines + ["dump %d %d" % (cell, section) for cell, _, section, _ in rows]))
    own = [row for row in rows if is_own(os.path.join(folder, row[1]), row[2])]
    linked = link(folder, own)
    image = read(os.path.join(folder, "out"))
    by_cells = held_in([(start, dumped_rows[cell, section]) for cell, _, section, start in rows])
    by_ld = held_in([(row[3], image[row[4] : row[4] + row[5]]) for row in headers(image) if row[1] != NOBITS and row[2] & ALLOC])
    count, equal = 0, True
    for cell, file, section, start in own:
        if (cell, section) in linked:
            loads = loads_from_slots(os.path.join(folder, file), section)
            one = without_slots(dumped_rows[cell, section], start, loads, by_cells)
            equal &= one == without_slots(linked[cell, section], start, loads, by_ld) and None not in one[1]
            count += len(one[1])
    return count, equal


def compare(program):
    """Prints a line for each way of making the objects. It fails where a transcript differs."""
    failed = False
    stems = compared_stems()
    load = "load k " + stems[-1]
    for compiler, model, level, code in itertools.product(
            compilers(), ("medany", "medlow"), ("-O0", "-O2"), ("-fno-pic", "-fPIC")):
        with tempfile.TemporaryDirectory() as folder:
            for stem in stems:
                build(folder, stem, compiler, "-mcmodel=" + model, level, code)
            if code == "-fPIC":
                what = "loads from slots"
                count, equal = compare_slots(program, folder, load)
            else:
                what = "sections"
                count, equal = sections_equal(program, folder, [load])
            failed |= is_wrong(" ".join([compiler, model, level, code]), count, what, equal)
    return compare_weak(program) or failed


def with_tasks(program, folder, lines, task):
    """What the stored run goes on with: tasks that do every instruction, and what qemu makes of it."""
    name = "k#%s.o" % tasks.STEM
    tasks.write_object(os.path.join(folder, name))
    load = "load k " + tasks.STEM
    begun = transcript(program, folder, lines + [load, "map"], 1)
    (cell, _, _, start), = [row for row in places(begun) if row[1] == name]
    # each entry of its table has a field of its own
    fields = sum(size // ENTRY for _, kind, _, _, size in sections(os.path.join(folder, name)).values() if kind == RELA)
    script, text = tasks.stored(start, task, len(lines) + 2)
    return [load] + script, ["%d ok load #%d patched %d" % (len(lines) + 1, cell, fields)] + text


def read_lines(path):
    with open(path) as file:
        return file.read().splitlines()


def with_refusal(lines):
    """The last command of the stored run: it is refused, so that the program ends with status 1."""
    return ["load k none"], ["%d E5 no-object none" % (len(lines) + 1)]


def next_numbers(text):
    """The numbers of the next cell and the next task behind that transcript. None is used again."""
    return [1 + max(int(number) for number in re.findall(form, text)) for form in (r"#(\d+)", r"\bt(\d+)")]


def store(program):
    """Writes the objects, the script, the wanted transcript and the status of the stored run of crates/cells."""
    data = os.path.join(STORED, "data", "d")
    lines, wanted = (read_lines(os.path.join(EXAMPLE, name)) for name in ("script", "transcript"))
    cell, task = next_numbers("\n".join(wanted))
    with tempfile.TemporaryDirectory() as folder:
        for path in glob.glob(os.path.join(EXAMPLE, "*.o")) + [os.path.join(data, "k#%s.o" % stem) for stem in ("a", "b")]:
            shutil.copy(path, folder)
        build(folder, "queue", "gcc", "-mcmodel=medany", "-O2", "-fno-pic")
        build(folder, "shop", "gcc", "-mcmodel=medlow", "-O0", "-fno-pic")
        build(folder, "kinds", None)
        loads = ["load k a", "load k b", "dump %d 1" % (cell + 1), "load k kinds"]
        script, linked = with_dumps(program, folder, lines + loads, 1)
        linked = linked.splitlines()
        if linked[: len(wanted)] != wanted:
            sys.exit("gnu.py: the program doesn't print examples/plugins/transcript; `make check` there shows the difference")
        more, put_out = with_tasks(program, folder, script, task)
        last, refusal = with_refusal(script + more)
        for path in glob.glob(os.path.join(data, "*.o")):
            os.remove(path)
        for path in glob.glob(os.path.join(folder, "*.o")):
            shutil.copy(path, data)
    write_lines(os.path.join(data, "s"), script + more + last)
    write_lines(os.path.join(STORED, "stdout"), linked + put_out + refusal)
    with open(os.path.join(STORED, "status"), "w") as file:
        file.write("1")
    say_origins(len(wanted), len(script) - len(lines + loads) - 1, len(linked), len(put_out))


def say_origins(own, dumps, linked, put_out):
    """Which lines of the transcript come from where."""
    print("lines 1 to %d: examples/plugins/transcript, the program's own" % own)
    print("lines %d to %d: the bytes of %d dumps from ld, all else the program's own" % (own + 1, linked, dumps))
    print("lines %d to %d: the places the program's own, all else from tasks.py and qemu" % (linked + 1, linked + put_out))
    print("line %d: from gnu.py" % (linked + put_out + 1))


def write_lines(path, lines):
    with open(path, "w") as file:
        file.write("\n".join(lines) + "\n")


def main():
    program = os.path.abspath(sys.argv[2]) if len(sys.argv) > 2 else os.path.join(STORED, "out", "cells")
    if sys.argv[1:2] == ["compare"]:
        sys.exit(compare(program))
    if sys.argv[1:2] == ["weak"]:
        sys.exit(compare_weak(program))
    if sys.argv[1:2] == ["store"]:
        sys.exit(store(program))
    sys.exit(__doc__)


if __name__ == "__main__":
    main()
