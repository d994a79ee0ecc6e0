#!/usr/bin/env python3
"""Objects that are made to cost much: names, bytes and tables that many parts of a file share.

    hostile.py make FOLDER       a folder with an object and a script for each kind, at half the size and at the whole
    hostile.py run [PROGRAM]     makes them, runs `cells` on each, and prints processor time and peak memory

Without PROGRAM `run` proves and builds crates/cells first. A file has at most 1 MiB, the most that is
read of one. `run` fails where a run takes a second of processor time or more, 150 MB or more, doesn't
come to what is said of its kind below, or takes more than 2.3 times as long at the whole size as at the
half (where that is long enough to tell). It also runs over an object file that is a pipe, a folder or a
device, each of which has to be a fault of reading at once.
"""

import os
import pathlib
import struct
import subprocess
import sys
import tempfile

WHOLE = 1 << 20
PROGBITS, SYMTAB, STRTAB, RELA, NOBITS = 1, 2, 3, 4, 8
WRITE, ALLOC, EXECINSTR = 1, 2, 4
ABSOLUTE = 0xFFF1
NONE, R_64, ADD8, ADD64, HI20, GOT_HI20, PCREL_HI20, PCREL_LO12_I = 0, 2, 33, 36, 26, 20, 23, 24

MOST_SECONDS = 1.0
MOST_MEGABYTES = 150
MOST_GROWTH = 2.3
# A run that is shorter is mostly the start of a process.
TELLING_SECONDS = 0.05


def header(name=0, kind=0, flags=0, offset=0, size=0, link=0, info=0, align=1, entry=0):
    return struct.pack("<IIQQQQIIQQ", name, kind, flags, 0, offset, size, link, info, align, entry)


def symbol(name, info=0, section=ABSOLUTE, value=0):
    return struct.pack("<IBBHQQ", name, info, 0, section, value, 0)


def entry(offset, kind, number=0, addend=0):
    return struct.pack("<QIIq", offset, kind, number, addend)


class File:
    """The parts of an object as they come, and its section headers. Section 1 is the string table of
    the section names, with the name `a` at 1."""

    def __init__(self, names=b"\0a\0"):
        self.body = bytearray(64)
        self.headers = [header(), header(1, STRTAB, 0, self.part(names), len(names))]

    def part(self, data):
        self.body += bytes(-len(self.body) % 8)
        offset = len(self.body)
        self.body += data
        return offset

    def section(self, **fields):
        self.headers.append(header(**fields))
        return len(self.headers) - 1

    def symbols(self, rows, locals_, strings=1):
        data = bytes(24) + b"".join(rows)
        return self.section(name=1, kind=SYMTAB, offset=self.part(data), size=len(data), link=strings,
                            info=locals_ + 1, align=8, entry=24)

    def table(self, symtab, target, offset, size):
        return self.section(name=1, kind=RELA, offset=offset, size=size, link=symtab, info=target,
                            align=8, entry=24)

    def image(self):
        self.body += bytes(-len(self.body) % 8)
        shoff = len(self.body)
        image = self.body + b"".join(self.headers)
        image[:64] = b"\x7fELF\x02\x01\x01" + bytes(9) + struct.pack(
            "<HHIQQQIHHHHHH", 1, 243, 1, 0, 0, shoff, 0, 64, 0, 0, 64, len(self.headers), 1)
        return bytes(image)


def same_bytes(size):
    """Loaded sections over the same bytes."""
    file = File()
    offset = file.part(bytes(size // 2 - 256))
    for _ in range((size - size // 2) // 64 - 4):
        file.section(name=1, kind=PROGBITS, flags=ALLOC, offset=offset, size=size // 2 - 256)
    return file


def zero_sections(size):
    """Sections of 16 MiB of zeros each."""
    file = File()
    for _ in range(size // 64 - 4):
        file.section(name=1, kind=NOBITS, flags=ALLOC | WRITE, size=1 << 24)
    return file


def section_names(size):
    """Sections that aren't loaded and share one long name."""
    file = File(b"\0" + b"a" * (size // 2 - 256) + b"\0")
    for _ in range((size - size // 2) // 64 - 4):
        file.section(name=1, kind=PROGBITS, offset=64, size=10)
    return file


def loaded_names(size):
    """Loaded sections that share one long name."""
    file = File(b"\0" + b"a" * (size // 2 - 256) + b"\0")
    for _ in range((size - size // 2) // 64 - 4):
        file.section(name=1, kind=PROGBITS, flags=ALLOC, offset=64, size=1)
    return file


def headers(size):
    """As many section headers as there is room for."""
    file = File()
    for _ in range(min(size // 64 - 4, 65270)):
        file.section(name=1, kind=PROGBITS, offset=64, size=10)
    return file


def local_names(size):
    """LOCAL symbols that share one long name."""
    file = File(b"\0" + b"a" * (size // 2 - 256) + b"\0")
    count = (size - size // 2) // 24 - 16
    file.symbols([symbol(1)] * count, count)
    return file


def global_names(size):
    """GLOBAL symbols whose names are the ends of long names, which differ in their last bytes alone."""
    longest, count = 1000, (size - 2048) // 26
    strings, places = bytearray(b"\0"), []
    number = 0
    while len(places) < count and len(strings) < count * 2:
        tail = b"%x" % number
        start = len(strings)
        strings += b"a" * (longest - len(tail)) + tail + b"\0"
        places += [start + first for first in range(longest - len(tail) - 1)]
        number += 1
    file = File(bytes(strings))
    rows = [symbol(place, 0x10, 0) for place in places[:count]]
    while 64 + len(strings) + 24 * len(rows) + 512 > size:
        rows.pop()
    file.symbols(rows, 0)
    return file


def shared_table(rows, target_size, flags=ALLOC | WRITE, step=0):
    """Sections that share one table, of which the next one begins `step` bytes later."""

    def make(size):
        file = File()
        symtab = file.symbols([], 0)
        data = b"".join(rows(size // 2 // 24))
        offset = file.part(data)
        bytes_at = file.part(bytes(target_size))
        count = (size - len(file.body)) // 128 - 4
        targets = [file.section(name=1, kind=PROGBITS, flags=flags, offset=bytes_at, size=target_size)
                   for _ in range(count)]
        for index, target in enumerate(targets):
            skipped = step * index
            file.table(symtab, target, offset + skipped, (len(data) - skipped) // 24 * 24)
        return file

    return make


def one_table(row, width, flags=ALLOC | WRITE):
    """One section with as many fields as there is room for."""

    def make(size):
        file = File()
        count = (size - 1024) // (24 + width)
        symtab = file.symbols([], 0)
        data = b"".join(row(number) for number in range(count))
        target = file.section(name=1, kind=PROGBITS, flags=flags, offset=file.part(bytes(width * count)),
                              size=width * count, align=4)
        file.table(symtab, target, file.part(data), len(data))
        return file

    return make


def slots(size):
    """GOT_HI20 entries, each of which asks for a slot of its own."""
    file = File()
    count = (size - 1024) // (24 * 2 + 4)
    text = file.section(name=1, kind=PROGBITS, flags=ALLOC | EXECINSTR, offset=file.part(bytes(4 * count)), size=4 * count, align=4)
    symtab = file.symbols([symbol(0)] * count, count)
    data = b"".join(entry(4 * n, GOT_HI20, n + 1) for n in range(count))
    file.table(symtab, text, file.part(data), len(data))
    return file


def pairs(last_broken):
    """PCREL_HI20 entries, each with a label and a PCREL_LO12, and perhaps one at the end without."""

    def make(size):
        file = File()
        count = (size - 1024) // (24 * 3 + 8)
        text = file.section(name=1, kind=PROGBITS, flags=ALLOC | EXECINSTR,
                            offset=file.part(bytes(8 * count)), size=8 * count, align=4)
        symtab = file.symbols([symbol(0, 0, text, 8 * n) for n in range(count)], count)
        rows = [entry(8 * n, PCREL_HI20) + entry(8 * n + 4, PCREL_LO12_I, n + 1) for n in range(count)]
        data = b"".join(rows)
        if last_broken:
            data = data[:-8] + struct.pack("<q", 1)
        file.table(symtab, text, file.part(data), len(data))
        return file

    return make


def last_clashes(size):
    """Fields of which the last one stands on the first."""
    file = one_table(lambda number: entry(8 * number, R_64), 8)(size)
    image = bytearray(file.body)
    place = len(image) - 24
    file.body[place:place + 8] = struct.pack("<Q", 4)
    return file


LOADED = (0, "1 ok load #1 patched ")
NO_PAGES = (1, "1 E11 exhausted ")
NO_MEMORY = (5, "")


def broken(rule):
    return 1, "1 E7 object k#a.o rule %d at " % rule


# Each kind, and what a run over it has to come to: its status, and how its text begins.
KINDS = {
    "sections of the same bytes": (same_bytes, NO_PAGES),
    "sections of zeros": (zero_sections, NO_PAGES),
    "section names": (section_names, LOADED),
    "names of loaded sections": (loaded_names, LOADED),
    "section headers": (headers, LOADED),
    "names of LOCALs": (local_names, LOADED),
    "names of GLOBALs": (global_names, LOADED),
    "a shared table of ADD8": (shared_table(lambda n: [entry(0, ADD8)] * n, 1), NO_MEMORY),
    "a shared table of ADD64": (shared_table(lambda n: [entry(0, ADD64)] * n, 8), NO_MEMORY),
    "a shared table of NONE": (shared_table(lambda n: [entry(0, NONE)] * n, 8), LOADED),
    "tables of NONE that overlap": (shared_table(lambda n: [entry(0, NONE)] * n, 8, step=24), LOADED),
    "tables at any byte": (shared_table(lambda n: [bytes(24)] * n, 8, step=1), LOADED),
    "NONE and one ADD8": (shared_table(lambda n: [entry(0, NONE)] * (n - 1) + [entry(0, ADD8)], 8), LOADED),
    "NONE and an unknown kind": (shared_table(lambda n: [entry(0, NONE)] * (n - 1) + [entry(0, 200)], 8), broken(20)),
    "one table of ADD8 on one byte": (one_table(lambda number: entry(0, ADD8), 1), LOADED),
    "one table of 64": (one_table(lambda number: entry(8 * number, R_64), 8), LOADED),
    "one table of HI20": (one_table(lambda number: entry(4 * number, HI20), 4, ALLOC | EXECINSTR), LOADED),
    "a shared table of GOT_HI20": (
        shared_table(lambda n: [entry(4 * number, GOT_HI20) for number in range(n)], WHOLE // 12, ALLOC | EXECINSTR), NO_MEMORY),
    "one table of GOT_HI20 on one slot": (one_table(lambda number: entry(4 * number, GOT_HI20), 4, ALLOC | EXECINSTR), LOADED),
    "as many slots as entries": (slots, LOADED),
    "pairs": (pairs(False), LOADED),
    "pairs, the last one broken": (pairs(True), broken(24)),
    "fields, the last one clashes": (last_clashes, broken(23)),
}


def folders(top):
    """Makes each kind at both sizes, and gives its name and the two folders."""
    for number, (name, (make, _)) in enumerate(KINDS.items()):
        both = []
        for size in (WHOLE // 2, WHOLE):
            folder = pathlib.Path(top, "%02d-%d" % (number, size))
            folder.mkdir(parents=True)
            image = make(size).image()
            assert len(image) <= size, (name, len(image))
            folder.joinpath("k#a.o").write_bytes(image)
            folder.joinpath("s").write_text("load k a\n")
            both.append(folder)
        yield name, both


def measured(program, folder):
    """The status of a run, its seconds of processor time, its peak in MB, and how its text begins."""
    with tempfile.TemporaryFile() as out:
        run = subprocess.Popen([program, str(folder), "s"], stdout=out, stderr=subprocess.STDOUT)
        _, status, usage = os.wait4(run.pid, 0)
        run.returncode = os.waitstatus_to_exitcode(status)
        out.seek(0)
        text = out.read()
    return run.returncode, usage.ru_utime + usage.ru_stime, usage.ru_maxrss / 1000, text[:60].decode(errors="replace")


def check(name, half, whole):
    """What is wrong with two runs."""
    wanted, begins = KINDS[name][1]
    for status, seconds, megabytes, text in (half, whole):
        if status != wanted or not text.startswith(begins) or bool(text) != bool(begins):
            yield "status %d and %r, not %d and %r" % (status, text, wanted, begins)
        if seconds >= MOST_SECONDS:
            yield "%.2f s" % seconds
        if megabytes >= MOST_MEGABYTES:
            yield "%.0f MB" % megabytes
    if whole[1] > TELLING_SECONDS and whole[1] > MOST_GROWTH * half[1]:
        yield "%.1f times as long" % (whole[1] / half[1])


def irregular(top):
    """Folders in which the object file is a pipe, a folder and a device without an end."""
    for name, make in (("a pipe", os.mkfifo), ("a folder", os.mkdir), ("a device", lambda path: os.symlink("/dev/zero", path))):
        folder = pathlib.Path(top, name)
        folder.mkdir()
        make(folder / "k#a.o")
        folder.joinpath("s").write_text("load k a\n")
        yield name, folder


def not_opened(program, folder):
    """What is wrong with a run that has to end for a fault of reading, within a second and without a word."""
    try:
        run = subprocess.run([program, str(folder), "s"], stdout=subprocess.PIPE, stderr=subprocess.STDOUT, timeout=MOST_SECONDS)
    except subprocess.TimeoutExpired:
        return "it doesn't end"
    return "" if (run.returncode, run.stdout) == (3, b"") else "status %d and %r" % (run.returncode, run.stdout[:60])


def built():
    crate = pathlib.Path(__file__).parent.parent / "crates" / "cells"
    subprocess.run(["rt", "run", "--"], cwd=crate, stdout=subprocess.DEVNULL, stderr=subprocess.DEVNULL)
    return str(crate / "out" / "cells")


def run(program):
    failed = False
    with tempfile.TemporaryDirectory() as top:
        for name, (half, whole) in folders(top):
            runs = [min((measured(program, folder) for _ in range(2)), key=lambda r: r[1]) for folder in (half, whole)]
            wrong = ", ".join(check(name, *runs))
            failed |= bool(wrong)
            print("%-32s %5.2f s %5.0f MB   %5.2f s %5.0f MB  status %d  %s%s" % (
                name, runs[0][1], runs[0][2], runs[1][1], runs[1][2], runs[1][0],
                runs[1][3].strip().splitlines()[0][:40] if runs[1][3].strip() else "",
                "   FAILED: " + wrong if wrong else ""), flush=True)
        for name, folder in irregular(top):
            wrong = not_opened(program, folder)
            failed |= bool(wrong)
            print("%-32s %s" % (name + " as object file", "FAILED: " + wrong if wrong else "is a fault of reading"))
    return 1 if failed else 0


def main(words):
    if words[:1] == ["make"] and len(words) == 2:
        for name, both in folders(words[1]):
            print(name, *both)
        return 0
    if words[:1] == ["run"] and len(words) <= 2:
        return run(words[1] if len(words) == 2 else built())
    print(__doc__)
    return 2


if __name__ == "__main__":
    sys.exit(main(sys.argv[1:]))
