#!/usr/bin/env python3
"""What the audit of a dump costs, for dumps of 32 and of 64 MiB.

    audit.py run [CELLS CELLAUDIT]        makes the folders and dumps, audits each, and prints processor time and peak memory
    audit.py examples [CELLS CELLAUDIT]   runs the script of each example with `dumpall` behind it, and fails where the
                                          audit of what it leaves isn't clean

Without programs it builds both first. The dump of 1,000 crates is the one that `cells` writes; the others are made by hand,
as somebody might who wants the audit to take long. `run` fails where an audit takes 4 seconds of processor
time, 400 MB, or more than 2.3 times as long for the dump of twice the size, and where it doesn't say what is told below.
"""

import multiprocessing
import os
import pathlib
import subprocess
import sys
import tempfile

from hostile import ALLOC, NONE, PROGBITS, R_64, WRITE, File, entry, global_names, local_names, symbol

WHOLE = 1 << 26
MOST_SECONDS = 4.0
MOST_MEGABYTES = 400
MOST_GROWTH = 2.3
TELLING_SECONDS = 0.1
GLOBAL = 0x10


def crate(own, needs, size, fields):
    """An object with a writable section of so many bytes, names of its own, and fields that hold what others have."""
    strings, places = bytearray(b"\0a\0"), []
    for name in own + needs:
        places.append(len(strings))
        strings += name.encode() + b"\0"
    file = File(bytes(strings))
    target = file.section(name=1, kind=PROGBITS, flags=ALLOC | WRITE, offset=file.part(bytes(size)), size=size, align=8)
    rows = [symbol(place, GLOBAL, target, 8 * number % size) for number, place in enumerate(places[:len(own)])]
    rows += [symbol(place, GLOBAL, 0) for place in places[len(own):]]
    table = file.symbols(rows, 0)
    data = b"".join(entry(8 * number, R_64, 1 + len(own) + number % len(needs)) for number in range(fields))
    if data:
        file.table(table, target, file.part(data), len(data))
    return file.image()


def many_crates(folder, size, cells):
    """The dump of a machine of up to 1,000 crates of 16 KiB and 680 names each, as `cells` writes it."""
    count = 1000 * size // WHOLE
    script = []
    for number in range(count):
        own = ["%04x_%03x" % (number, place) for place in range(680)]
        needs = ["%04x_%03x" % (number * place // 10, place) for place in range(10)] if number else []
        folder.joinpath("k#c%d.o" % number).write_bytes(crate(own, needs, 16384, len(needs)))
        script.append("load k c%d" % number)
    folder.joinpath("s").write_text("\n".join(script + ["dumpall", ""]))
    with folder.joinpath("d").open("wb") as out:
        subprocess.run([cells, str(folder), "s", "--pages", "4096"], stdout=out, check=True)


def dump(*lines):
    return "1 ok dumpall\n" + "".join("  %s\n" % line for line in lines) + "  end\n"


HEAD = ("space 10000000 4096", "ns 0 k -")


def one_line(folder, size, cells):
    """A line without an end."""
    folder.joinpath("d").write_text(dump(*HEAD, "bytes 1.2 10000000 " + "0" * (size - 100)))


def one_byte(folder, size, cells):
    """Each line tells the same byte of one section."""
    folder.joinpath("k#a.o").write_bytes(crate(["a"], [], 64, 0))
    lines = ["bytes 1.2 10000000 00"] * (size // 24 - 10)
    folder.joinpath("d").write_text(dump(*HEAD, "cell 1 0 a k#a.o attached", "place 1 2 10000000", "name 0 a 1.2+0", *lines))


def aliases(folder, size, cells):
    """Aliases without number."""
    folder.joinpath("k#a.o").write_bytes(crate(["a"], [], 64, 0))
    lines = ["alias 1 0 n%06x" % number for number in range(size // 20 - 10)]
    folder.joinpath("d").write_text(dump(*HEAD, "cell 1 0 a k#a.o attached", "place 1 2 10000000", *lines))


def aliases_in_no_order(folder, size, cells):
    """The same, but their names don't rise."""
    folder.joinpath("k#a.o").write_bytes(crate(["a"], [], 64, 0))
    lines = ["alias 1 0 n%06x" % (number * 0x9E3779 & 0xFFFFFF) for number in range(size // 20 - 10)]
    folder.joinpath("d").write_text(dump(*HEAD, "cell 1 0 a k#a.o attached", "place 1 2 10000000", *lines))


def short_aliases(folder, size, cells):
    """As many as there can be: two names, in turn."""
    folder.joinpath("k#a.o").write_bytes(crate(["a"], [], 64, 0))
    lines = ["alias 1 0 %s" % "xy"[number % 2] for number in range(size // 14 - 10)]
    folder.joinpath("d").write_text(dump(*HEAD, "cell 1 0 a k#a.o attached", "place 1 2 10000000", *lines))


def hidden_aliases(folder, size, cells):
    """A cell that nobody sees has one alias again and again, and another cell, whose names are all shown, has the same."""
    folder.joinpath("k#a.o").write_bytes(crate(["a"], [], 64, 0))
    count = size // 46
    cell = ["cell 1 0 a k#a.o group 1", "place 1 2 10000000", *["alias 1 0 b"] * count,
            "cell 2 0 a k#a.o attached", "place 2 2 10001000", *["alias 2 0 b"] * count]
    names = ["name 0 a 2.2+0", *["name 0 b 2.2+0"] * count]
    told = ["bytes %d.2 %x %s" % (number, 0x10000000 + 4096 * (number - 1), "00" * 64) for number in (1, 2)]
    folder.joinpath("d").write_text(dump(*HEAD, *cell, *names, *told))


def names_of_all(folder, size, cells):
    """1,000 objects that define the same names, and 24 cells of one that needs each of them."""
    names = ["n%04d" % number for number in range(1000 * size // WHOLE)]
    for number in range(1000):
        folder.joinpath("k#o%d.o" % number).write_bytes(crate(names, [], 8192, 0))
    folder.joinpath("k#u.o").write_bytes(crate(["u"], names, 16384, len(names)))
    lines = []
    for number in range(1, 1025):
        part = ("o%d k#o%d.o" % (number, number - 1) if number < 1001 else "u%d k#u.o" % number,
                0x10000000 + 8192 * (number - 1) if number < 1001 else 0x10000000 + 8192 * 1000 + 16384 * (number - 1001))
        lines += ["cell %d 0 %s attached" % (number, part[0]), "place %d 2 %x" % (number, part[1])]
    for number in range(1001, 1025):
        lines += ["link %d.2 %d 1.2" % (number, place) for place in range(len(names))]
    for number in range(1, 1001):
        lines += ["name 0 %s 1.2+%x" % (name, 8 * place % 8192) for place, name in enumerate(names)]
    folder.joinpath("d").write_text(dump(*HEAD, *lines))


def names_in_one_string(folder, size, cells):
    """Objects of 1 MiB with symbols whose names are one long string or ends of long strings."""
    lines = []
    for number in range(1, 1 + 8 * size // WHOLE):
        make = local_names if number % 2 else global_names
        folder.joinpath("k#o%d.o" % number).write_bytes(make(1 << 20).image())
        lines.append("cell %d 0 o%d k#o%d.o attached" % (number, number, number))
    folder.joinpath("d").write_text(dump(*HEAD, *lines))


def too_many_cells(folder, size, cells):
    """65,535 cells of one object, of which 1,024 may be."""
    folder.joinpath("k#a.o").write_bytes(crate(["a"], [], 64, 0))
    lines = ["cell %d 0 a%d k#a.o attached" % (number, number) for number in range(1, 65536 * size // WHOLE)]
    folder.joinpath("d").write_text(dump(*HEAD, *lines))


def one_file(folder, size, cells):
    """Up to 1,024 cells of one object with 10,000 names, that needs another 10,000 of one cell before them."""
    own = ["n%05d" % number for number in range(10000)]
    needs = ["m%05d" % number for number in range(10000)]
    folder.joinpath("k#a.o").write_bytes(crate(own, needs, 8192, 1000))
    folder.joinpath("k#b.o").write_bytes(crate(needs, [], 8192, 0))
    lines = ["cell 1 0 b k#b.o attached", "place 1 2 10000000"]
    for number in range(2, 2 + 1023 * size // WHOLE):
        lines += ["cell %d 0 a%d k#a.o attached" % (number, number), "place %d 2 %x" % (number, 0x10000000 + 8192 * number)]
    folder.joinpath("d").write_text(dump(*HEAD, *lines))


# How each ends: its status, and how what it says begins.
KINDS = {
    "1,000 crates, dumped by cells": (many_crates, (0, "ok")),
    "a line without an end": (one_line, (1, "A1 unreadable line 4")),
    "each line about one byte": (one_byte, (1, "A5 differs line")),
    "aliases without number": (aliases, (1, "A5 differs line")),
    "aliases in no order": (aliases_in_no_order, (1, "A5 differs line")),
    "aliases of two short names": (short_aliases, (1, "A5 differs line")),
    "an alias of a cell put aside": (hidden_aliases, (0, "ok")),
    "1,000 objects of the same names": (names_of_all, (1, "A5 differs line")),
    "names in one long string": (names_in_one_string, (0, "ok")),
    "65,535 cells": (too_many_cells, (1, "A1 unreadable line")),
    "1,024 cells of one object": (one_file, (1, "A5 differs line")),
}


def made_apart(make, *words):
    """Makes a folder in a process of its own: a process that is begun here counts what was held here as its own peak."""
    maker = multiprocessing.Process(target=make, args=words)
    maker.start()
    maker.join()
    if maker.exitcode:
        raise SystemExit("can't be made")


def measured(program, folder):
    """The status of an audit, its seconds of processor time, its peak in MB, and how its text begins."""
    with tempfile.TemporaryFile() as out:
        run = subprocess.Popen([program, str(folder), "d"], stdout=out, stderr=subprocess.STDOUT)
        _, status, usage = os.wait4(run.pid, 0)
        run.returncode = os.waitstatus_to_exitcode(status)
        out.seek(0)
        text = out.read(100)
    return run.returncode, usage.ru_utime + usage.ru_stime, usage.ru_maxrss / 1000, text.decode(errors="replace")


def check(name, half, whole):
    """What is wrong with two audits."""
    wanted, begins = KINDS[name][1]
    for status, seconds, megabytes, text in (half, whole):
        if status != wanted or not text.startswith(begins):
            yield "status %d and %r, not %d and %r" % (status, text, wanted, begins)
        if seconds >= MOST_SECONDS:
            yield "%.2f s" % seconds
        if megabytes >= MOST_MEGABYTES:
            yield "%.0f MB" % megabytes
    if whole[1] > TELLING_SECONDS and whole[1] > MOST_GROWTH * half[1]:
        yield "%.1f times as long" % (whole[1] / half[1])


def built(name):
    crate = pathlib.Path(__file__).parent.parent / "crates" / name
    subprocess.run(["rt", "run", "--"], cwd=crate, stdout=subprocess.DEVNULL, stderr=subprocess.DEVNULL)
    return str(crate / "out" / name)


def run(cells, cellaudit):
    failed = False
    for name, (make, _) in KINDS.items():
        runs = []
        for size in (WHOLE // 2, WHOLE):
            with tempfile.TemporaryDirectory() as top:
                folder = pathlib.Path(top)
                made_apart(make, folder, size, cells)
                held = folder.joinpath("d").stat().st_size / (1 << 20)
                runs.append(min((measured(cellaudit, folder) for _ in range(2)), key=lambda r: r[1]))
        wrong = ", ".join(check(name, *runs))
        failed |= bool(wrong)
        print("%-32s %5.2f s %5.0f MB   %5.2f s %5.0f MB  dump %.0f MiB, status %d  %s%s" % (
            name, runs[0][1], runs[0][2], runs[1][1], runs[1][2], held, runs[1][0],
            runs[1][3].strip().splitlines()[0][:40] if runs[1][3].strip() else "",
            "   FAILED: " + wrong if wrong else ""), flush=True)
    return 1 if failed else 0


def is_clean(script, cells, cellaudit):
    """Whether what the script leaves, beside which the objects lie, audits clean."""
    with tempfile.TemporaryDirectory() as top:
        folder = pathlib.Path(top)
        for file in script.parent.glob("*.o"):
            folder.joinpath(file.name).write_bytes(file.read_bytes())
        folder.joinpath("s").write_text(script.read_text() + "\ndumpall\n")
        with folder.joinpath("d").open("wb") as out:
            subprocess.run([cells, str(folder), "s"], stdout=out)
        said = subprocess.run([cellaudit, str(folder), "d"], capture_output=True, text=True).stdout
    print("%-30s %s" % (script.parent, said.splitlines()[0] if said else "nothing"), flush=True)
    return said == "ok\n"


def examples(cells, cellaudit):
    scripts = sorted(pathlib.Path(__file__).parent.parent.glob("examples/**/script"))
    return 0 if all([is_clean(script, cells, cellaudit) for script in scripts]) else 1


CALLS = {"run": run, "examples": examples}


def main(words):
    if words and words[0] in CALLS and len(words) in (1, 3):
        return CALLS[words[0]](*(words[1:] or (built("cells"), built("cellaudit"))))
    print(__doc__)
    return 2


if __name__ == "__main__":
    sys.exit(main(sys.argv[1:]))
