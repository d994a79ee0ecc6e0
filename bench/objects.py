#!/usr/bin/env python3
"""Writes relocatable ELF64 objects for RV64 in one fixed layout.

As a library: `image(sections, symbols)` gives the bytes of an object.
As a program:
    objects.py images CRATES     the files of byte tables in cell_elfw, cell_assemble and cell_tests, into the folder `crates`
    objects.py example FOLDER    the two objects of examples/first, into a folder
    objects.py large FOLDER      folders with large objects and their scripts, for bench/read.sh
    objects.py spaces FOLDER     folders that show what namespaces cost, for bench/spaces.sh
    objects.py crowd FOLDER      crates of many sections and links, for bench/holding.sh
    objects.py links             the dumps that cells has to show of the GNU objects, as GNU ld links them
    objects.py check             looks at the offsets of three objects that were worked out by hand

The sections of the file, in order: 0, which is zeros; the object's own; `.symtab`, `.strtab`,
`.shstrtab`; and a RELA section for each own section that has entries. The parts of the file, in
order, each at the next multiple of 8: the file header, the bytes of the own sections, the symbols,
the RELA tables, `.strtab`, `.shstrtab`, the section headers.
"""

import math
import os
import struct
import subprocess
import sys
import tempfile

PROGBITS, SYMTAB, STRTAB, RELA, NOTE, NOBITS = 1, 2, 3, 4, 7, 8
RISCV_ATTRIBUTES = 0x70000003
WRITE, ALLOC, EXECINSTR, INFO_LINK = 1, 2, 4, 0x40
LOCAL, GLOBAL, WEAK = 0, 1, 2
NOTYPE = 0
UNDEFINED = 0

R_32, R_64 = 1, 2
R_CALL_PLT = 19
R_PCREL_HI20, R_PCREL_LO12_I = 23, 24
R_ADD8 = 33


class Section:
    """An own section. `entries` are (offset, kind, symbol number, addend)."""

    def __init__(self, name, flags, data=b"", entries=(), kind=PROGBITS, size=None, align=8):
        self.name = name
        self.flags = flags | ALLOC
        self.data = data
        self.entries = list(entries)
        self.kind = kind
        self.size = len(data) if size is None else size
        self.align = align


class Symbol:
    """A symbol. `section` is the section's number, or 0 where it is undefined."""

    def __init__(self, name, section, value=0, binding=GLOBAL, sort=NOTYPE, size=0):
        self.name = name
        self.section = section
        self.value = value
        self.binding = binding
        self.sort = sort
        self.size = size


def string_table(names):
    """The bytes of a string table, and the offset of each name."""
    table = bytearray(1)
    offsets = []
    for name in names:
        if name:
            offsets.append(len(table))
            table += name.encode() + b"\0"
        else:
            offsets.append(0)
    return bytes(table), offsets


def shared_table(names):
    """The same, but each name that ends an earlier one is a part of it."""
    table = bytearray(1)
    offsets = []
    places = {"": 0}
    for name in names:
        if name not in places:
            start = len(table)
            table += name.encode() + b"\0"
            for first in range(len(name)):
                places.setdefault(name[first:], start + first)
        offsets.append(places[name])
    return bytes(table), offsets


def image(sections, symbols, table=string_table):
    """The bytes of an object. LOCAL symbols stand first."""
    related = [n for n, s in enumerate(sections, 1) if s.entries]
    count = len(sections)
    symtab, strtab, shstrtab = count + 1, count + 2, count + 3

    strings, name_offsets = table([s.name for s in symbols])
    titles = [s.name for s in sections] + [".symtab", ".strtab", ".shstrtab"]
    titles += [".rela" + sections[n - 1].name for n in related]
    title_strings, title_offsets = string_table(titles)

    rows = bytearray(24)
    for symbol, offset in zip(symbols, name_offsets):
        info = 16 * symbol.binding + symbol.sort
        rows += struct.pack("<IBBHQQ", offset, info, 0, symbol.section, symbol.value, symbol.size)

    out = bytearray(64)

    def part(data):
        out.extend(bytes(-len(out) % 8))
        offset = len(out)
        out.extend(data)
        return offset

    starts = [part(s.data if s.kind != NOBITS else b"") for s in sections]
    rows_at = part(rows)
    tables = []
    for n in related:
        entries = bytearray()
        for offset, kind, symbol, addend in sections[n - 1].entries:
            entries += struct.pack("<QIIq", offset, kind, symbol, addend)
        tables.append((part(entries), len(entries), n))
    strings_at = part(strings)
    titles_at = part(title_strings)

    headers = [(0,) * 10]

    def header(kind, flags, offset, size, link=0, info=0, align=1, entry_size=0):
        title = title_offsets[len(headers) - 1]
        headers.append((title, kind, flags, 0, offset, size, link, info, align, entry_size))

    for section, start in zip(sections, starts):
        header(section.kind, section.flags, start, section.size, align=section.align)
    local = sum(1 for s in symbols if s.binding == LOCAL)
    header(SYMTAB, 0, rows_at, len(rows), strtab, local + 1, 8, 24)
    header(STRTAB, 0, strings_at, len(strings))
    header(STRTAB, 0, titles_at, len(title_strings))
    for start, size, n in tables:
        header(RELA, INFO_LINK, start, size, symtab, n, 8, 24)

    headers_at = part(b"".join(struct.pack("<IIQQQQIIQQ", *row) for row in headers))
    out[0:64] = struct.pack(
        "<16sHHIQQQIHHHHHH",
        b"\x7fELF\x02\x01\x01",
        1, 243, 1, 0, 0, headers_at, 0, 64, 0, 0, 64, len(headers), shstrtab,
    )
    return bytes(out)


def number(file, at, size):
    return int.from_bytes(file[at:at + size], "little")


# The objects of the tests.

def seven():
    """`.data`: `a::n` is 7."""
    return image([Section(".data", WRITE, struct.pack("<Q", 7))], [Symbol("a::n", 1)])


def pointer():
    """`.rodata`: `b::p` is the address of `a::n` and 4, then 1."""
    row = Section(".rodata", 0, struct.pack("<QQ", 0, 1), [(0, R_64, 2, 4)])
    return image([row], [Symbol("b::p", 1), Symbol("a::n", UNDEFINED)])


def lone_low():
    """`.text` with a PCREL_LO12_I whose label has no PCREL_HI20."""
    text = Section(".text", EXECINSTR, bytes(8), [(4, R_PCREL_LO12_I, 1, 0)], align=4)
    return image([text], [Symbol("", 1, 0, LOCAL)])


def crowded():
    """`m::go` calls `o::f` between two calls of the system, among sections and symbols that nothing uses.

    The sections stand as GNU as has them: each table where its number says, two empty sections, and
    the attributes of the processor.
    """
    code = struct.pack("<6I", 0x00300893, 0x73, 0x97, 0x80E7, 0x893, 0x73)
    attributes = b"A" + struct.pack("<I", 19) + b"riscv\0" + b"\1" + struct.pack("<I", 8) + b"\4\x10\0"
    strings, names = string_table(["$x", "m::go", "o::f"])
    section = 3
    rows = bytes(24)
    for name, binding, sort, home, value in [
        (0, LOCAL, section, 1, 0),
        (0, LOCAL, section, 3, 0),
        (0, LOCAL, section, 4, 0),
        (names[0], LOCAL, NOTYPE, 1, 0),
        (0, LOCAL, section, 5, 0),
        (names[1], GLOBAL, NOTYPE, 1, 0),
        (names[2], GLOBAL, NOTYPE, UNDEFINED, 0),
    ]:
        rows += struct.pack("<IBBHQQ", name, 16 * binding + sort, 0, home, value, 0)
    entry = struct.pack("<QIIq", 8, R_CALL_PLT, 7, 0)
    titles = [".text", ".rela.text", ".data", ".bss", ".riscv.attributes", ".symtab", ".strtab", ".shstrtab"]
    title_strings, title_offsets = string_table(titles)
    parts = [
        (PROGBITS, ALLOC | EXECINSTR, code, 0, 0, 4, 0),
        (RELA, INFO_LINK, entry, 6, 1, 8, 24),
        (PROGBITS, ALLOC | WRITE, b"", 0, 0, 1, 0),
        (NOBITS, ALLOC | WRITE, b"", 0, 0, 1, 0),
        (RISCV_ATTRIBUTES, 0, attributes, 0, 0, 1, 0),
        (SYMTAB, 0, rows, 7, 6, 8, 24),
        (STRTAB, 0, strings, 0, 0, 1, 0),
        (STRTAB, 0, title_strings, 0, 0, 1, 0),
    ]
    out = bytearray(64)
    headers = bytes(64)
    for title, (kind, flags, data, link, info, align, size) in zip(title_offsets, parts):
        out.extend(bytes(-len(out) % 8))
        headers += struct.pack("<IIQQQQIIQQ", title, kind, flags, 0, len(out), len(data), link, info, align, size)
        out.extend(data)
    out.extend(bytes(-len(out) % 8))
    out[0:64] = struct.pack(
        "<16sHHIQQQIHHHHHH",
        b"\x7fELF\x02\x01\x01",
        1, 243, 1, 0, 0, len(out), 0, 64, 0, 0, 64, 9, 8,
    )
    return bytes(out + headers)


def zeros(pages):
    """`.bss` of so many pages."""
    return image([Section(".bss", WRITE, kind=NOBITS, size=4096 * pages)], [])


# Sources for GNU as, and how GNU ld links them where cells puts them.

GNU_POINTER = """
    .data
    .globl "g::q"
"g::q":
    .quad "a::n"
    .quad "a::n"+8
"""

GNU_CODE = """
    .text
    .globl "c::go"
"c::go":
    la a0, table
    beqz a0, done
    call helper
    ld a1, 8(a0)
done:
    ret
helper:
    lla a2, count
    lw a3, count
    sw a3, count, a4
    ret
    .section .rodata
table:
    .quad 5
    .quad "c::go"
    .word helper - "c::go"
    .data
    .byte 9
    .align 2
count:
    .word 6
"""


# The SUB kinds have no addend here: GNU ld adds it, where the psABI takes it away.
GNU_KINDS = """
    .text
    nop
    .globl "r::go"
"r::go":
    lui a0, %hi(words+4)
    addi a0, a0, %lo(words+4)
    lw a1, %lo(words+4)(a0)
    sw a1, %lo(words+4)(a0)
    lui a2, %hi(halves)
    addi a2, a2, %lo(halves)
    jal ra, later
    bne a0, a1, later
    bltu a1, a0, "r::go"
    j "r::go"
called:
    auipc ra, 0
    jalr ra, 0(ra)
    .reloc called, R_RISCV_CALL, later
    .zero 16
later:
    auipc a3, %pcrel_hi(words)
    addi a3, a3, %pcrel_lo(later)
    sd a3, %pcrel_lo(later)(a3)
    ret
    .data
words:
    .word words
    .word later - "r::go"
    .quad later - words
    .quad later
from_here:
    .word 0x55555555
    .reloc from_here, R_RISCV_32_PCREL, later+3
set_word:
    .word 0x55555555
    .reloc set_word, R_RISCV_SET32, later+1
halves:
    .half later - "r::go"
    .half 0x1234
    .reloc halves+2, R_RISCV_SET16, later
bytes:
    .byte later - "r::go"
    .byte 0x12, 0xd5, 0xd5, 0x7f, 0x80
    .reloc bytes+1, R_RISCV_SET8, later+2
    .reloc bytes+2, R_RISCV_SET6, "r::go"+62
    .reloc bytes+3, R_RISCV_SUB6, later
    .reloc bytes+4, R_RISCV_ADD8, later+5
    .reloc bytes+5, R_RISCV_SUB8, later
"""


def assembled(source):
    """The object that GNU as makes of a source."""
    with tempfile.TemporaryDirectory() as folder:
        path = os.path.join(folder, "s.o")
        subprocess.run(
            ["riscv64-linux-gnu-as", "-march=rv64im", "-mabi=lp64", "-mno-relax", "-o", path, "-"],
            input=source.encode(), check=True,
        )
        with open(path, "rb") as file:
            return file.read()


def linked(source, starts, names=()):
    """The bytes of each section as GNU ld links it, with the sections at these starts."""
    with tempfile.TemporaryDirectory() as folder:
        path = os.path.join(folder, "s.o")
        with open(path, "wb") as file:
            file.write(assembled(source))
        script = "SECTIONS {\n"
        for name, start in starts:
            script += "  %s 0x%x : { *(%s) }\n" % (name, start, name)
        script += "}\n"
        script += "".join('"%s" = 0x%x;\n' % row for row in names)
        with open(os.path.join(folder, "t"), "w") as file:
            file.write(script)
        out = os.path.join(folder, "out")
        command = ["riscv64-linux-gnu-ld", "--no-relax", "-e", "0", "-T", os.path.join(folder, "t")]
        subprocess.run(command + ["-o", out, path], check=True)
        found = {}
        for name, _ in starts:
            piece = os.path.join(folder, "piece")
            subprocess.run(
                ["riscv64-linux-gnu-objcopy", "-O", "binary", "--only-section=" + name, out, piece],
                check=True,
            )
            with open(piece, "rb") as file:
                found[name] = file.read()
        return found


def dumped(start, data):
    """The lines of a dump."""
    lines = []
    for at in range(0, len(data), 16):
        lines.append("  %x" % (start + at) + "".join(" %02x" % byte for byte in data[at:at + 16]))
    return lines


def links():
    """What the dumps of the three GNU objects have to show. `k#a.o` is loaded before `k#g.o`, so its
    page is the first, and `.text`, which is empty, takes the page after it."""
    for source, starts, names in [
        (GNU_POINTER, [(".text", 0x10001000), (".data", 0x10002000)], [("a::n", 0x10000000)]),
        (GNU_CODE, [(".text", 0x10000000), (".rodata", 0x10001000), (".data", 0x10002000)], []),
        (GNU_KINDS, [(".text", 0x10000000), (".data", 0x10001000)], []),
    ]:
        found = linked(source, starts, names)
        for name, start in starts:
            print(name)
            print("\n".join(dumped(start, found[name])))


def spelled(data):
    """The inside of a byte string, 24 bytes a line."""
    lines = []
    for at in range(0, len(data), 24):
        line = ""
        for byte in data[at:at + 24]:
            if byte == 0:
                line += "\\0"
            elif chr(byte) in "\"\\0123456789" or not 0x21 <= byte <= 0x7e:
                line += "\\x%02x" % byte
            else:
                line += chr(byte)
        lines.append("    " + line + "\\")
    return lines


def byte_table(name, comment, data):
    head = "pub static %s: [u8; %d] = *b\"\\" % (name, len(data))
    return "\n".join(["/// " + comment, head] + spelled(data) + ["    \";"])


def images(folder):
    """The files of byte tables, into the folder `crates`."""
    for path, head, tables in [
        ("cell_object_tests/src/images.rt", "Two objects whose layout was worked out by hand, as bench/objects.py writes them.", [
            ("SEVEN", "`.data`: `a::n` is 7.", seven()),
            ("POINTER", "`.rodata`: `b::p` is the address of `a::n` and 4, then 1.", pointer()),
        ]),
        ("cell_tests/src/broken.rt", "A broken object, as bench/objects.py writes it.", [
            ("LONE_LOW", "`.text` with a PCREL_LO12_I whose label has no PCREL_HI20.", lone_low()),
        ]),
        ("cell_tests/src/crowded.rt", "An object with more than is loaded, as bench/objects.py writes it.", [
            ("CROWDED", "`m::go` calls `o::f`, among sections and symbols that nothing uses.", crowded()),
        ]),
        ("cell_tests/src/gnu.rt", "Objects of GNU as, as bench/objects.py has them made.", [
            ("GNU_POINTER", "What GNU as makes of `GNU_POINTER` in bench/objects.py.", assembled(GNU_POINTER)),
            ("GNU_CODE", "What GNU as makes of `GNU_CODE` in bench/objects.py.", assembled(GNU_CODE)),
            ("GNU_KINDS", "What GNU as makes of `GNU_KINDS` in bench/objects.py.", assembled(GNU_KINDS)),
        ]),
    ]:
        text = "//! " + head + "\n\n" + "\n\n".join(byte_table(*table) for table in tables) + "\n"
        with open(os.path.join(folder, path), "w") as file:
            file.write(text)


# Large objects.

LETTERS = "abcdefghijklmnopqrstuvwxyzABCDEFGHIJKLMNOPQRSTUVWXYZ0123456789"


def short_name(n):
    """A name of three letters, another for each number."""
    return "".join(LETTERS[n // 62 ** place % 62] for place in (2, 1, 0))


def shuffled(count):
    """The numbers below, in an order that is always the same and has no runs."""
    step = 25261
    while math.gcd(step, count) != 1:
        step += 1
    return [n * step % count for n in range(count)]


def entries_apart(count):
    """As many ADD8 entries, each on a byte of its own, out of order."""
    rows = [(n, R_ADD8, 1, 0) for n in shuffled(count)]
    return image([Section(".data", WRITE, bytes(count), rows)], [Symbol("m::x", 1)])


def entries_together(count):
    """As many ADD8 entries on one byte."""
    rows = [(0, R_ADD8, 1, 0)] * count
    return image([Section(".data", WRITE, bytes(8), rows)], [Symbol("m::x", 1)])


def entries_paired(count):
    """As many PCREL_LO12_I entries, and after them the PCREL_HI20 entry of each."""
    code = struct.pack("<II", 0x517, 0x50513) * count
    low = [(8 * n + 4, R_PCREL_LO12_I, n + 1, 0) for n in shuffled(count)]
    high = [(8 * n, R_PCREL_HI20, 0, 0x10000000) for n in shuffled(count)]
    labels = [Symbol("", 1, 8 * n, LOCAL) for n in range(count)]
    return image([Section(".text", EXECINSTR, code, low + high, align=4)], labels)


def symbols_short(count):
    """As many definitions with names of three letters."""
    names = [Symbol(short_name(n), 1) for n in shuffled(count)]
    return image([Section(".data", WRITE, bytes(8))], names)


def symbols_long(count):
    """As many definitions; their names, of up to 1024 letters, are ends of a few long strings."""
    names = []
    for n in range(count):
        text = short_name(n // 1024) + (short_name(n // 1024) * 341)[:1021]
        names.append(Symbol(text[n % 1024:] if n % 1024 < 1021 else short_name(40000 + n), 1))
    return image([Section(".data", WRITE, bytes(8))], distinct(names), shared_table)


def distinct(symbols):
    """The symbols, without those whose name came before."""
    return list({s.name: s for s in symbols}.values())


def sections_many(count):
    """As many empty sections without names."""
    return image([Section("", WRITE, align=1) for _ in range(count)], [])


def sections_defined(count):
    """As many empty sections, and twice as many definitions in the last of them."""
    parts = [Section("", WRITE, align=1) for _ in range(count)]
    return image(parts, [Symbol(short_name(n), count) for n in shuffled(2 * count)])


def sections_related(count):
    """As many sections of one byte, each with one entry."""
    rows = [(0, R_ADD8, 1, 0)]
    parts = [Section("", WRITE, b"\1", rows, align=1) for _ in range(count)]
    return image(parts, [Symbol("m::x", 1)])


def sections_shared(count):
    """As many sections that name the same 900,000 bytes of the file."""
    parts = [Section("", WRITE, bytes(900000))]
    parts += [Section("", WRITE, kind=NOBITS, size=900000) for _ in range(count - 1)]
    file = bytearray(image(parts, []))
    for n in range(2, count + 1):
        at = number(file, 40, 8) + 64 * n
        file[at + 4:at + 8] = struct.pack("<I", PROGBITS)
        file[at + 24:at + 32] = struct.pack("<Q", 64)
    return bytes(file)


def definitions(count):
    return image(
        [Section(".data", WRITE, bytes(8))],
        [Symbol("a::" + short_name(n), 1) for n in range(count)],
    )


def needs(count):
    """As many undefined names, each of them in an entry."""
    rows = [(n, R_ADD8, n + 1, 0) for n in range(count)]
    names = [Symbol("a::" + short_name(n), UNDEFINED) for n in shuffled(count)]
    return image([Section(".data", WRITE, bytes(count), rows)], names)


def one_of_many(n):
    """`mN::x`, and a pointer to the one before."""
    rows = [(0, R_64, 2, 0)] if n else []
    names = [Symbol("m%d::x" % n, 1)] + ([Symbol("m%d::x" % (n - 1), UNDEFINED)] if n else [])
    return image([Section(".data", WRITE, bytes(8), rows)], names)


def crate_of_many(n, count):
    """Crate `cN` of a load that brings `count`: it has the addresses of names of the next three crates."""
    wanted = ["c%d::x" % ((n + step) % count) for step in (1, 2, 3)]
    entries = [(8 * place, R_64, 2 + place, 0) for place in range(3)]
    symbols = [Symbol("c%d::x" % n, 1)] + [Symbol(name, UNDEFINED) for name in wanted]
    return image([Section(".rodata", 0, bytes(24), entries)], symbols)


def crate_of_crowd(n, count):
    """Crate `pN` of `count` in a ring: 800 writable sections, whose 2,267 entries lead to its own and to those of the next crate."""
    sections, links = 800, 2267
    name = lambda crate, section: "p%d::s%d" % (crate % count, section % sections)
    symbols = [Symbol(name(n, s), s + 1) for s in range(sections)] + [Symbol(name(n + 1, s), UNDEFINED) for s in range(sections)]
    parts = []
    for s in range(sections):
        entries = [(0, R_64, 1 + (s + 1) % sections, 0), (8, R_64, 1 + sections + s, 0), (16, R_64, 1 + sections + (7 * s) % sections, 0)]
        parts.append(Section(".data.%d" % s, WRITE, bytes(24), entries[: 3 if s < links - 2 * sections else 2]))
    return image(parts, symbols)


def crowd(folder):
    """One load of 60 crates with 48,000 sections and 136,020 links, alone and with 20 times `purge`."""
    files = {"k#p%d.o" % n: crate_of_crowd(n, 60) for n in range(60)}
    write_folder(folder, "crowd", files, "load k p0\n")
    with open(os.path.join(folder, "crowd", "purges"), "w") as out:
        out.write("load k p0\n" + "purge\n" * 20)


def large(folder):
    """For each kind a folder, with the whole size and with half of it."""
    loads = "load k a\n"
    for part, size in [("half", 1), ("whole", 2)]:
        for name, make, count in [
            ("entries-apart", entries_apart, 20500),
            ("entries-together", entries_together, 21500),
            ("entries-paired", entries_paired, 6500),
            ("symbols-short", symbols_short, 18000),
            ("symbols-long", symbols_long, 20500),
            ("sections-many", sections_many, 8000),
            ("sections-defined", sections_defined, 3300),
            ("sections-related", sections_related, 3100),
            ("sections-shared", sections_shared, 200),
        ]:
            files = {"k#a.o": make(count * size)}
            write_folder(folder, name + "-" + part, files, loads)
        files = {"k#a.o": definitions(9000 * size), "k#b.o": needs(9000 * size)}
        write_folder(folder, "needs-" + part, files, loads + "load k b\n")
        files = {"k#m%d.o" % n: one_of_many(n) for n in range(500 * size)}
        text = "".join("load k m%d\n" % n for n in range(500 * size))
        write_folder(folder, "cells-" + part, files, text)
        files = {"k#c%d.o" % n: crate_of_many(n, 400 * size) for n in range(400 * size)}
        write_folder(folder, "one-load-" + part, files, "load k c0\n")
        files = {"k#a.o": zeros(512 * size)}
        write_folder(folder, "dump-" + part, files, loads + "dump 1 1\n")
        files = {"k#a.o": seven()}
        write_folder(folder, "commands-" + part, files, loads + "dump 1 1\n" * (50000 * size))


def spaces(folder):
    """What namespaces cost: loads and dumps with the one namespace and with all that there may be, in a chain."""
    last = 255
    chain = "".join("ns n%d under %s\n" % (n, "n%d" % (n - 1) if n > 1 else "k") for n in range(1, last + 1))
    for name, ns in [("load-deep", "n%d" % last), ("load-k", "k")]:
        write_folder(folder, name, {"%s#a.o" % ns: definitions(10000)}, chain + "load %s a\n" % ns)
    write_folder(folder, "load-none", {}, chain)
    for name, before in [("dumps-256", chain), ("dumps-1", "")]:
        write_folder(folder, name, {"k#a.o": seven()}, before + "load k a\n" + "dump 1 1\n" * 20000)
    files = {"k#c%d.o" % n: crate_of_many(n, 1000) for n in range(1000)}
    write_folder(folder, "load-1000", files, "load k c0\n")
    write_folder(folder, "read-1000", files, "# the files are read, and none is loaded\n")
    # There may be 1024 cells, so 500 crates and a clone of each.
    files = {"red#c%d.o" % n: crate_of_many(n, 500) for n in range(500)}
    load = "ns red under k\nload red c0\n"
    write_folder(folder, "read-500", files, "# the files are read, and none is loaded\n")
    write_folder(folder, "load-500", files, load)
    write_folder(folder, "clone-500", files, load + "clone red as blue\n")


def write_folder(top, name, files, script):
    folder = os.path.join(top, name)
    os.makedirs(folder)
    for file, data in files.items():
        assert len(data) <= 1048576, (name, len(data))
        with open(os.path.join(folder, file), "wb") as out:
            out.write(data)
    with open(os.path.join(folder, "script"), "w") as out:
        out.write(script)


def example(folder):
    for name, data in [("k#a.o", seven()), ("k#b.o", pointer())]:
        with open(os.path.join(folder, name), "wb") as file:
            file.write(data)


def check():
    a, b = seven(), pointer()
    assert len(a) == 488 and number(a, 40, 8) == 168
    assert number(a, 60, 2) == 5 and number(a, 62, 2) == 4
    assert len(b) == 624 and number(b, 40, 8) == 240 and number(b, 60, 2) == 6
    symtab = number(b, 40, 8) + 2 * 64
    rela = number(b, 40, 8) + 5 * 64
    assert number(b, symtab + 24, 8) == 80 and number(b, rela + 24, 8) == 152
    low = lone_low()
    rela = number(low, 40, 8) + 5 * 64
    assert number(low, rela + 24, 8) == 120
    print("as worked out by hand")


if __name__ == "__main__":
    if sys.argv[1:2] == ["images"] and len(sys.argv) == 3:
        images(sys.argv[2])
    elif sys.argv[1:2] == ["crowd"] and len(sys.argv) == 3:
        crowd(sys.argv[2])
    elif sys.argv[1:2] == ["large"] and len(sys.argv) == 3:
        large(sys.argv[2])
    elif sys.argv[1:2] == ["spaces"] and len(sys.argv) == 3:
        spaces(sys.argv[2])
    elif sys.argv[1:] == ["links"]:
        links()
    elif sys.argv[1:] == ["check"]:
        check()
    elif sys.argv[1:2] == ["example"] and len(sys.argv) == 3:
        example(sys.argv[2])
    else:
        sys.exit(__doc__)
