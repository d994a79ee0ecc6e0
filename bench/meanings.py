#!/usr/bin/env python3
"""Asks qemu what instructions do, and prints its answers as the tables of crates/cell_object_tests/src/meanings.rt.

    meanings.py > ../crates/cell_object_tests/src/meanings.rt     and then rt fmt in crates/cell_object_tests

One program has every case. GNU as and ld make it, and qemu-riscv64 runs it once. It needs Debian's packages
binutils-riscv64-unknown-elf and qemu-user.

Most cases stand in the program's own text: they load a0 and a1, do the instruction with rd a2, and keep a2. A case
whose answer depends on where it stands has a page of its own far from all others, of zeros but for the instruction and
a jump back. Zeros are no instruction and nothing else is mapped near, so wherever a branch or a jump leads, the next
thing is a signal, which tells where.
"""
import os
import struct
import subprocess
import tempfile

TOOL = "riscv64-unknown-elf-"
LEAST, MOST = -(2**63), 2**63 - 1
WORD_LEAST, WORD_MOST, WORD_ONES = 0x80000000, 0x7FFFFFFF, 0xFFFFFFFF
MIXED = 0x123456789ABC
# a low word with a sign and one without, below bits that are to be left out
SIGN_SET, SIGN_CLEAR = 0x187654321, -0x187654321

# by operation: a and b
ORDERS = [(LEAST, MOST), (MOST, LEAST), (-1, 0), (0, -1), (7, 7), (6, 7)]
SHIFTS = [(-MIXED, k) for k in (0, 31, 32, 63, 64, -1)] + [(MOST, 63)]
WORD_SUMS = [
    (5, 7), (WORD_MOST, 1), (WORD_ONES, 1), (WORD_LEAST, -1), (SIGN_SET, 0), (SIGN_CLEAR, 0), (MOST, 1),
]
WORD_SHIFTS = [(WORD_LEAST, k) for k in (0, 31, 32, 63)] + [(SIGN_SET, k) for k in (0, 1, -1)]
WORD_SHIFTS += [(WORD_MOST, 1), (WORD_ONES, 31)]
WORD_PRODUCTS = [(5, -7), (WORD_MOST, 2), (WORD_ONES, WORD_ONES), (SIGN_SET, SIGN_CLEAR), (LEAST, 3)]
PRODUCTS = [(a, b) for a in (LEAST, MOST, -1) for b in (LEAST, MOST, -1)] + [(1, -1), (-1, 1)]
QUOTIENTS = [
    (7, 2), (-7, 2), (7, -2), (-7, -2), (7, 0), (-7, 0), (LEAST, -1), (LEAST, 0), (LEAST, 1), (MOST, LEAST),
]
WORD_QUOTIENTS = [
    (-7, 2), (7, -2), (-7, -2), (-7, 0), (WORD_LEAST, WORD_ONES), (-WORD_LEAST, -1), (WORD_LEAST, 0), (WORD_ONES, 2),
    (0x100000007, 0x500000002), (0x100000007, 0x500000000),
]
BY_REGISTERS = [
    ("add sub", [(5, 7), (MOST, 1), (-1, 1), (LEAST, -1), (0, LEAST)]),
    ("slt sltu", ORDERS),
    ("xor or and", [(0xFF00FF00, 0xF0F0F0F0), (MIXED, -1), (LEAST, MOST)]),
    ("sll srl sra", SHIFTS),
    ("addw subw", WORD_SUMS),
    ("sllw srlw sraw", WORD_SHIFTS),
    ("mul", [(-7, 3), (LEAST, -1), (MOST, 2), (MIXED, 0x10001)]),
    ("mulh mulhsu mulhu", PRODUCTS),
    ("div divu rem remu", QUOTIENTS),
    ("mulw", WORD_PRODUCTS),
    ("divw divuw remw remuw", WORD_QUOTIENTS),
]

# by operation: a and the immediate
WORD_NUMBERS = [(5, 7), (WORD_MOST, 1), (WORD_ONES, 0), (WORD_ONES, 1), (WORD_LEAST, -1), (SIGN_SET, 0)]
WORD_NUMBERS += [(SIGN_CLEAR, -2048), (MOST, 2047)]
WORD_DISTANCES = [(WORD_LEAST, 0), (WORD_LEAST, 31), (WORD_MOST, 1), (WORD_ONES, 31), (SIGN_SET, 0), (SIGN_SET, 31)]
BY_NUMBER = [
    ("addi", [(5, 7), (MOST, 1), (0, -1), (0, -2048), (-1, 2047), (LEAST, -1)]),
    ("slti", [(-1, 0), (0, -1), (-2048, -2048), (-2049, -2048), (LEAST, 2047), (MOST, 2047)]),
    ("sltiu", [(0, 1), (1, 1), (0, -1), (-1, -1), (-2, -1), (LEAST, 2047), (-2049, -2048)]),
    ("xori ori andi", [(MIXED, -1), (MIXED, -2048), (-MIXED, 2047)]),
    ("slli srli srai", [(-MIXED, k) for k in (0, 1, 31, 32, 63)] + [(MOST, 63)]),
    ("addiw", WORD_NUMBERS),
    ("slliw srliw sraiw", WORD_DISTANCES),
]

# by operation: what stands in rs1, rs2 and the immediate, each at a place of its own
JALR = [(0x3000, 0), (0x3001, 0), (0x3001, 2), (0x3000, -2048), (0x3000, 2047), (5, -6), (-1, 1), (-1, 0)]
ORDER_PAIRS = [(-1, 0), (0, -1), (7, 7), (LEAST, 1)]
PLACED = [("jalr", a, 0, i) for a, i in JALR]
PLACED += [(op, a, b, 64) for op in ("beq", "bne", "blt", "bge", "bltu", "bgeu") for a, b in ORDER_PAIRS]
PLACED += [("beq", 0, 0, i) for i in (-0x1000, -2, 0xFFE)]
PLACED += [("auipc", 0, 0, i) for i in (0, 1, 0x7FFFF, 0x80000, 0xFFFFF)]
PLACED += [("jal", 0, 0, i) for i in (-0x100000, -2, 8, 0xFFFFE)]
DISTANCE, INSIDE, PAGE = 0x10000000, 0x800, 0x1000

# what stands in a doubleword of memory, and what stands in rs2
LOADS = [
    ("lb lbu", (0x17F, 0x180)), ("lh lhu", (0x17FFF, 0x18000)), ("lw lwu", (0x17FFFFFFF, 0x180000000)),
    ("ld", (LEAST, MOST)),
]
ACCESSES = [(op, held, 0) for ops, all_held in LOADS for op in ops.split() for held in all_held]
ACCESSES += [(op, held, value) for op in "sb sh sw sd".split() for held, value in ((-1, MIXED), (0, -1))]

# The program first asks for signals 4 to 11. On a signal s2 is 1, s3 is the address where it came, and the program goes
# on at s1: the context that comes in a2 has the pc and x1 to x31 from byte 176 on. s0 is where the next answer goes.
START = """
.option norelax
.text
.globl _start
_start:
    li s4, 4
1:  mv a0, s4
    la a1, action
    li a2, 0
    li a3, 8
    li a7, 134
    ecall
    addi s4, s4, 1
    li t0, 12
    bne s4, t0, 1b
    la s0, answers
    j begin
signal:
    ld t0, 176(a2)
    sd t0, 176 + 8 * 19(a2)
    li t0, 1
    sd t0, 176 + 8 * 18(a2)
    ld t0, 176 + 8 * 9(a2)
    sd t0, 176(a2)
    li a7, 139
    ecall
begin:
"""
END = """
    li a0, 1
    la a1, answers
    sub a2, s0, a1
    li a7, 64
    ecall
    li a0, 0
    li a7, 93
    ecall
.data
.balign 8
action: .dword signal, 4, 0
held: .dword 0
.bss
.balign 8
answers: .zero %d
"""


def kept(*registers):
    """Adds registers to the answers."""
    lines = ["sd %s, %d(s0)" % (register, 8 * i) for i, register in enumerate(registers)]
    return lines + ["addi s0, s0, %d" % (8 * len(registers))]


def operands(a, b):
    return ["li a0, %d" % a, "li a1, %d" % b]


def placed_text(op, imm):
    if op == "auipc":
        return "auipc a2, 0x%x" % imm
    if op == "jal":
        return "jal a2, . + %d" % imm
    if op == "jalr":
        return "jalr a2, %d(a0)" % imm
    return "%s a0, a1, . + %d" % (op, imm)


def place(number):
    return DISTANCE * (number + 1) + INSIDE


def at_place(number, op, a, b, imm):
    """A case with a page of its own; the answers are a2, whether a signal came, and where."""
    page = ['.section .place%d, "ax"' % number, ".zero %d" % INSIDE, placed_text(op, imm), "jr s1"]
    page += [".zero %d" % (PAGE - INSIDE - 8), ".text"]
    goes = operands(a, b) + ["li s2, 0", "la s1, 1f", "li t0, 0x%x" % place(number), "jr t0", "1:"]
    return page + goes + kept("a2", "s2", "s3")


def touching(op, held, value):
    """A load or a store at `held`; the answer is what is loaded, or what stands there after the store."""
    lines = operands(held, value) + ["la t0, held", "sd a0, 0(t0)"]
    if op[0] == "s":
        return lines + ["%s a1, 0(t0)" % op, "ld a2, 0(t0)"] + kept("a2")
    return lines + ["%s a2, 0(t0)" % op] + kept("a2")


def by_registers():
    return [(op, a, b, 0) for ops, pairs in BY_REGISTERS for op in ops.split() for a, b in pairs]


def by_number():
    upper = [("lui", 0, 0, i) for i in (0, 1, 0x7FFFF, 0x80000, 0xFFFFF)]
    return upper + [(op, a, 0, i) for ops, pairs in BY_NUMBER for op in ops.split() for a, i in pairs]


def computed():
    """The cases in the program's own text, with the text of each instruction."""
    for op, a, b, imm in by_number():
        yield op, a, b, imm, "lui a2, 0x%x" % imm if op == "lui" else "%s a2, a0, %d" % (op, imm)
    for op, a, b, imm in by_registers():
        yield op, a, b, imm, "%s a2, a0, a1" % op


def source():
    lines, answers = [START], 0
    for _, a, b, _, text in computed():
        lines += operands(a, b) + [text] + kept("a2")
        answers += 1
    for number, case in enumerate(PLACED):
        lines += at_place(number, *case)
        answers += 3
    for case in ACCESSES:
        lines += touching(*case)
        answers += 1
    return "\n".join(lines) + END % (8 * answers)


def script():
    """The linker's script: each page where its case says."""
    lines = ["  . = 0x10000;", "  .text : { *(.text) }", "  . = ALIGN(4096);"]
    lines += ["  .data : { *(.data) }", "  .bss : { *(.bss) }"]
    lines += ["  .place%d 0x%x : { *(.place%d) }" % (n, place(n) - INSIDE, n) for n in range(len(PLACED))]
    return "SECTIONS {\n%s\n}\n" % "\n".join(lines)


def run():
    """The answers of the program, in the order of its cases."""
    with tempfile.TemporaryDirectory() as folder:
        for name, text in (("cases.s", source()), ("places.ld", script())):
            with open(os.path.join(folder, name), "w") as file:
                file.write(text)
        words = [TOOL + "as", "-march=rv64im", "-mabi=lp64", "-mno-relax", "cases.s", "-o", "cases.o"]
        subprocess.run(words, cwd=folder, check=True)
        words = [TOOL + "ld", "--no-relax", "--no-warn-rwx-segments", "-T", "places.ld", "cases.o", "-o", "cases"]
        subprocess.run(words, cwd=folder, check=True)
        answers = subprocess.run(["qemu-riscv64", "cases"], cwd=folder, stdout=subprocess.PIPE, check=True).stdout
    return iter(struct.unpack("<%dq" % (len(answers) // 8), answers))


def shown(number):
    """A number of 64 bits as Rust has it, signed."""
    if number in (LEAST, MOST):
        return "i64::MIN" if number == LEAST else "i64::MAX"
    if abs(number) < 10000:
        return str(number)
    digits = "%x" % abs(number)
    groups = [digits[max(0, end - 4) : end] for end in range(len(digits), 0, -4)]
    return ("-" if number < 0 else "") + "0x" + "_".join(reversed(groups))


def unsigned(number):
    return shown(number % 2**64)


def table(name, kind, fields, about, rows):
    print("\n/// %s\npub struct %s(%s);" % (about, kind, ", ".join("pub " + field for field in fields)))
    print("\npub const %s: [%s; %d] = [" % (name, kind, len(rows)))
    for op, *words in rows:
        print("    %s(%s, %s)," % (kind, op.capitalize(), ", ".join(words)))
    print("];")


def main():
    answers = run()
    results, turns = [], []
    for op, a, b, imm, _ in computed():
        results.append((op, "0", shown(a), shown(b), shown(imm), shown(next(answers))))
    for number, (op, a, b, imm) in enumerate(PLACED):
        written, taken, where = next(answers), next(answers), next(answers)
        row = (op, unsigned(place(number)), shown(a), shown(b), shown(imm))
        if op[0] != "b":
            results.append(row + (shown(written),))
        turns.append(row + ("Some(%s)" % unsigned(where) if taken else "None",))
    accesses = [(op, shown(held), shown(value), shown(next(answers))) for op, held, value in ACCESSES]

    print("//! What qemu-riscv64 does at instructions. `bench/meanings.py` writes this file.\n")
    print("use cell_isa::Op;\nuse cell_isa::Op::*;")
    about = "Operation, pc, rs1, rs2, immediate, and what is written to rd."
    table("RESULTS", "Computed", ["Op", "u64", "i64", "i64", "i32", "i64"], about, results)
    about = "The same, and where it leads where that isn't the next instruction."
    table("TURNS", "Led", ["Op", "u64", "i64", "i64", "i32", "Option<u64>"], about, turns)
    about = "Operation, the doubleword in memory, rs2, and what is loaded, or the doubleword after the store."
    table("ACCESSES", "Accessed", ["Op", "i64", "i64", "i64"], about, accesses)


if __name__ == "__main__":
    main()
