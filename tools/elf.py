"""Object files, as far as the tools beside this file look at them; docs/FORMAT.md has their rules."""
import os
import re
import struct
from dataclasses import dataclass

from transcript import Wrong

NAME = re.compile(r"([a-z0-9_]{1,64})#([a-z0-9_]{1,64})(?:-[a-z0-9]{1,64})?\.o")
WRITE, ALLOC, EXECINSTR = 1, 2, 4
SYMTAB, RELA, NOBITS = 2, 4, 8
# The kinds of entries of the psABI, also those that aren't read.
KINDS = dict(enumerate("NONE 32 64 RELATIVE COPY JUMP_SLOT TLS_DTPMOD32 TLS_DTPMOD64 TLS_DTPREL32 TLS_DTPREL64 TLS_TPREL32 "
                       "TLS_TPREL64".split()))
KINDS |= dict(enumerate("BRANCH JAL CALL CALL_PLT GOT_HI20 TLS_GOT_HI20 TLS_GD_HI20 PCREL_HI20 PCREL_LO12_I PCREL_LO12_S HI20 "
                        "LO12_I LO12_S TPREL_HI20 TPREL_LO12_I TPREL_LO12_S TPREL_ADD ADD8 ADD16 ADD32 ADD64 SUB8 SUB16 SUB32 "
                        "SUB64".split(), 16))
KINDS |= {43: "ALIGN", 44: "RVC_BRANCH", 45: "RVC_JUMP", 46: "RVC_LUI"}
KINDS |= dict(enumerate("RELAX SUB6 SET6 SET8 SET16 SET32 32_PCREL IRELATIVE PLT32 SET_ULEB128 SUB_ULEB128".split(), 51))


@dataclass
class Section:
    number: int
    at: int
    name: str
    type: int
    flags: int
    offset: int
    size: int
    link: int
    info: int


@dataclass
class Symbol:
    number: int
    name: str
    info: int
    section: int
    value: int
    size: int

    def is_global(self):
        return self.info >> 4 == 1

    def is_weak(self):
        return self.info >> 4 == 2

    def is_place(self):
        """Whether it is a function or a variable, and no label of an assembler."""
        return self.info & 15 < 3 and 0 < self.section < 0xFF00 and self.name and not self.name.startswith(".L")


@dataclass
class Entry:
    section: int
    offset: int
    kind: int
    symbol: int
    addend: int


def string_at(table, offset):
    end = table.find(b"\0", offset)
    return table[offset:end].decode(errors="replace") if 0 <= offset < len(table) and end >= 0 else "?"


class Object:
    """What stands in a file. Whatever lacks in one that breaks the rules is left out."""

    def __init__(self, path):
        try:
            with open(path, "rb") as file:
                self.data = file.read()
        except OSError as error:
            raise Wrong(f"{path} can't be read: {error.strerror}") from None
        self.path, self.sections, self.symbols, self.tables = path, [], [], []
        if self.data[:7] == b"\x7fELF\x02\x01\x01" and len(self.data) >= 64:
            self.read_sections()
            self.read_symbols()
            self.tables = [s for s in self.sections if s.type == RELA]

    def bytes_of(self, section):
        return b"" if section.type == NOBITS else self.data[section.offset:section.offset + section.size]

    def read_sections(self):
        self.start, = struct.unpack_from("<Q", self.data, 40)
        count, names = struct.unpack_from("<HH", self.data, 60)
        rows = [(at, struct.unpack_from("<IIQQQQIIQQ", self.data, at))
                for at in range(self.start, self.start + 64 * count, 64) if at + 64 <= len(self.data)]
        for number, (at, row) in enumerate(rows):
            self.sections.append(Section(number, at, str(row[0]), row[1], row[2], row[4], row[5], row[6], row[7]))
        if names < len(self.sections):
            table = self.bytes_of(self.sections[names])
            for section in self.sections:
                section.name = string_at(table, int(section.name))

    def read_symbols(self):
        self.symbol_table = next((s for s in self.sections if s.type == SYMTAB), None)
        if not self.symbol_table:
            return
        rows = self.bytes_of(self.symbol_table)
        link = self.symbol_table.link
        names = self.bytes_of(self.sections[link]) if link < len(self.sections) else b""
        for number, row in enumerate(struct.iter_unpack("<IBBHQQ", rows[:len(rows) // 24 * 24])):
            name = string_at(names, row[0])
            if row[1] & 15 == 3 and row[3] < len(self.sections):
                name = self.sections[row[3]].name
            self.symbols.append(Symbol(number, name, row[1], row[3], row[4], row[5]))

    def entries(self, table):
        """The entries of a RELA section."""
        rows = self.bytes_of(table)
        for offset, kind, symbol, addend in struct.iter_unpack("<QIIq", rows[:len(rows) // 24 * 24]):
            yield Entry(table.info, offset, kind, symbol, addend)

    def is_loaded(self, number):
        return 0 < number < len(self.sections) and bool(self.sections[number].flags & ALLOC)

    def definitions(self):
        return [s for s in self.symbols if s.is_global() and self.is_loaded(s.section)]

    def weak_definitions(self):
        return [s for s in self.symbols if s.is_weak() and self.is_loaded(s.section)]

    def asked_for(self):
        """The undefined symbols that an entry of a loaded section has."""
        used = {entry.symbol for table in self.tables if self.is_loaded(table.info) for entry in self.entries(table)}
        return [s for s in self.symbols if s.number in used and s.section == 0]

    def needs(self):
        """The undefined GLOBAL names that an entry of a loaded section has."""
        return [s for s in self.asked_for() if s.is_global()]

    def weak_needs(self):
        """The WEAK ones, which are 0 where nobody has them."""
        return [s for s in self.asked_for() if s.is_weak()]

    def place(self, section, offset):
        """The name of a place: the last function or variable that begins before it, and the distance."""
        begun = [s for s in self.symbols if s.is_place() and s.section == section and s.value <= offset]
        if not begun:
            name = self.sections[section].name if section < len(self.sections) else f"section {section}"
            return f"{name}+0x{offset:x}" if offset else name
        last = max(begun, key=lambda s: (s.value, s.is_global() or s.is_weak()))
        return f"{last.name}+0x{offset - last.value:x}" if offset > last.value else last.name


def files_of(folder, namespace, stem):
    """The object files of a stem in a namespace, in the order of their names."""
    found = [(name, NAME.fullmatch(name)) for name in sorted(os.listdir(folder))]
    return [name for name, parts in found if parts and (parts[1], parts[2]) == (namespace, stem)]
