#!/usr/bin/env python3
"""Every instruction in a task that prints, and what qemu prints for the same instructions.

    tasks.py print          what each task of the stored run has to put out

`gnu.py store` takes object, script and transcript from here into the stored run of crates/cells. The cases are those of
meanings.py and the ones below. Two programs are made of one source: an object whose tasks put each answer out by the
calls of `cells`, and a program that qemu-riscv64 runs, which writes its answers as bytes. It needs Debian's packages
binutils-riscv64-unknown-elf and qemu-user.
"""
import os
import re
import struct
import subprocess
import sys
import tempfile

import meanings

TOOL = meanings.TOOL
STEM = "edges"

# An answer stands in a2. A task puts it out in decimal, and a space.
PUT_OUT = ["mv a0, a2", "li a7, 2", "ecall", "li a0, 32", "li a7, 1", "ecall"]
STORE = ["sd a2, 0(s0)", "addi s0, s0, 8"]
END_TASK = ["li a0, 0", "li a7, 0", "ecall"]

# A doubleword with a byte of its own at each place, signs among them.
HELD = 0x81F2_7364_05C6_B708 - 2**64
OTHER = 0x1122_3344_5566_7788


def by_numbers():
    """Operations with an immediate, each with the number of its turns that are not told by its length."""
    return [(meanings.operands(a, b) + [text], 0) for op, a, b, _, text in meanings.computed() if "a1" not in text]


def by_registers():
    return [(meanings.operands(a, b) + [text], 0) for op, a, b, _, text in meanings.computed() if "a1" in text]


def held(number, *lines):
    """The lines, with the number in memory at t0."""
    return ["li a0, %d" % number, "addi t0, sp, -64", "sd a0, 0(t0)"] + list(lines)


def accesses():
    """Loads and stores on the stack: the cases of meanings.py, and each place in a doubleword."""
    cases = []
    for op, number, value in meanings.ACCESSES:
        if op[0] == "s":
            cases.append(held(number, "li a1, %d" % value, "%s a1, 0(t0)" % op, "ld a2, 0(t0)"))
        else:
            cases.append(held(number, "%s a2, 0(t0)" % op))
    for op, width in (("lb", 1), ("lbu", 1), ("lh", 2), ("lhu", 2), ("lw", 4), ("lwu", 4)):
        cases += [held(HELD, "%s a2, %d(t0)" % (op, at)) for at in range(0, 8, width)]
    for op, width in (("sb", 1), ("sh", 2), ("sw", 4)):
        for at in range(0, 8, width):
            cases.append(held(HELD, "li a1, %d" % OTHER, "%s a1, %d(t0)" % (op, at), "ld a2, 0(t0)"))
    # the least and the greatest immediate
    cases.append(held(HELD, "addi t0, t0, 1024", "addi t0, t0, 1024", "ld a2, -2048(t0)"))
    cases.append(held(HELD, "addi t0, t0, -2047", "li a1, 77", "sb a1, 2047(t0)", "lbu a2, 2047(t0)"))
    # what is loaded into x0 is lost, and rd may be the base
    cases.append(held(HELD, "ld zero, 0(t0)", "mv a2, zero"))
    cases.append(held(HELD, "ld t0, 0(t0)", "mv a2, t0"))
    return [(lines, 0) for lines in cases]


def flow():
    """Branches, jumps and what stands beside them, each with the turns more or less than its instructions."""
    cases = []
    for op in ("beq", "bne", "blt", "bge", "bltu", "bgeu"):
        for a, b in meanings.ORDER_PAIRS:
            taken = {"beq": a == b, "bne": a != b, "blt": a < b, "bge": a >= b,
                     "bltu": a % 2**64 < b % 2**64, "bgeu": a % 2**64 >= b % 2**64}[op]
            jump = ["%s a0, a1, 1f" % op, "li a2, 7", "j 2f", "1: li a2, 8", "2:"]
            cases.append((meanings.operands(a, b) + jump, -2 if taken else -1))
    cases += [
        # back, five times
        (["li a2, 0", "li a0, 5", "1: addi a2, a2, 3", "addi a0, a0, -1", "bne a0, zero, 1b"], 12),
        # the address behind the jump
        (["jal a2, 1f", "li a2, 0", "1: auipc a1, 0", "sub a2, a2, a1"], -1),
        # back to the second instruction
        (["li a2, 5", "j 2f", "1: addi a2, a2, 1", "j 3f", "2: j 1b", "3:"], 0),
        # bit 0 of the target is cleared
        (["auipc a0, 0", "jalr a2, 13(a0)", "li a2, 0", "sub a2, a2, a0"], -1),
        (["auipc a0, 0", "addi a0, a0, 1", "jalr a2, 15(a0)", "li a2, 0", "sub a2, a2, a0"], -1),
        # rs1 is read before rd is written
        (["auipc a0, 0", "jalr a0, 12(a0)", "li a0, 0", "auipc a1, 0", "sub a2, a1, a0"], -1),
        # x0 stays 0
        (["li a0, 7", "add zero, a0, a0", "mv a2, zero"], 0),
        (["lui zero, 5", "mv a2, zero"], 0),
        (["jal zero, 1f", "1: mv a2, zero"], 0),
        # rd may be rs1 and rs2
        (["li a0, -6", "mul a0, a0, a0", "mv a2, a0"], 0),
        (["li a0, 100", "li a1, 7", "rem a1, a0, a1", "mv a2, a1"], 0),
        # fences, also one with registers, keep all registers
        (["li a2, 9", "fence", "fence.tso", ".word 0x0ff5060f"], 0),
    ]
    # the pc and an upper immediate
    cases += [(["auipc a2, 0x%x" % imm, "auipc a1, 0", "sub a2, a2, a1"], 0) for imm in (0, 1, 0x7FFFF, 0x80000, 0xFFFFF)]
    return cases


TASKS = [("numbers", by_numbers()), ("registers", by_registers()), ("memory", accesses()), ("flow", flow())]

QEMU_START = [".option norelax", ".text", ".globl _start", "_start:", "la s0, answers"]
QEMU_END = ["li a0, 1", "la a1, answers", "sub a2, s0, a1", "li a7, 64", "ecall", "li a0, 0", "li a7, 93", "ecall"]


def for_qemu():
    lines, count = list(QEMU_START), 0
    for _, cases in TASKS:
        for case, _ in cases:
            lines += case + STORE
            count += 1
    return lines + QEMU_END + [".bss", ".balign 8", "answers: .zero %d" % (8 * count)]


def for_cells():
    lines = [".option norelax", ".text"]
    for name, cases in TASKS:
        lines += ['.globl "%s::%s"' % (STEM, name), '"%s::%s":' % (STEM, name)]
        for case, _ in cases:
            lines += case + PUT_OUT
        lines += END_TASK
    return lines


def assemble(folder, name, lines):
    with open(os.path.join(folder, name + ".s"), "w") as file:
        file.write("\n".join(lines) + "\n")
    words = [TOOL + "as", "-march=rv64im", "-mabi=lp64", "-mno-relax", name + ".s", "-o", name + ".o"]
    subprocess.run(words, cwd=folder, check=True)
    return os.path.join(folder, name + ".o")


def answers(folder):
    """What qemu computes, by tasks."""
    assemble(folder, "asked", for_qemu())
    subprocess.run([TOOL + "ld", "--no-relax", "asked.o", "-o", "asked"], cwd=folder, check=True)
    data = subprocess.run(["qemu-riscv64", "asked"], cwd=folder, stdout=subprocess.PIPE, check=True).stdout
    numbers = list(struct.unpack("<%dQ" % (len(data) // 8), data))
    for name, cases in TASKS:
        yield name, numbers[: len(cases)]
        del numbers[: len(cases)]


def entries(path):
    """Where each task begins in the text of the object, and how many instructions it has."""
    shown = subprocess.run([TOOL + "nm", "-n", path], stdout=subprocess.PIPE, check=True).stdout.decode()
    starts = {name: int(at, 16) for at, name in re.findall(r"^([0-9a-f]+) T %s::(\w+)$" % STEM, shown, re.M)}
    size = subprocess.run([TOOL + "size", path], stdout=subprocess.PIPE, check=True).stdout.decode().split()[6]
    ends = sorted(starts.values())[1:] + [int(size)]
    return {name: (at, (end - at) // 4) for (name, at), end in zip(sorted(starts.items(), key=lambda p: p[1]), ends)}


def write_object(path):
    """Writes the object whose tasks print."""
    with tempfile.TemporaryDirectory() as folder:
        made = assemble(folder, "edges", for_cells())
        with open(made, "rb") as file, open(path, "wb") as out:
            out.write(file.read())


def stored(start, task, line):
    """Script and transcript of the tasks, from that line on, where the object's text starts at `start`."""
    with tempfile.TemporaryDirectory() as folder:
        wanted = dict(answers(folder))
        where = entries(assemble(folder, "edges", for_cells()))
    script, text = [], []
    for name, cases in TASKS:
        at, length = where[name]
        turns = length + sum(more for _, more in cases)
        script += ["spawn k %s::%s 0" % (STEM, name), "step %d 100000" % task]
        text += ["%d ok spawn t%d pc %x" % (line, task, start + at)]
        text += ["%d ok step t%d turns %d done 0" % (line + 1, task, turns)]
        text += ["  out t%d %s" % (task, "".join("%d " % number for number in wanted[name]))]
        task, line = task + 1, line + 2
    return script, text


def main():
    with tempfile.TemporaryDirectory() as folder:
        for name, numbers in answers(folder):
            print(name, *numbers)


if __name__ == "__main__":
    sys.exit(main() if sys.argv[1:] == ["print"] else __doc__)
