"""Writes large sources for `cellas` into a folder, each at half its size and at the whole of 1 MiB.

    sources.py FOLDER
"""
import os
import sys

LIMIT = 1 << 20
LETTERS = "abcdefghijklmnopqrstuvwxyzABCDEFGHIJKLMNOPQRSTUVWXYZ0123456789"


def name(n):
    """A name of four letters, another for each number."""
    return "q" + "".join(LETTERS[n // 62 ** place % 62] for place in (2, 1, 0))


# For each kind its first line, and the lines for a number.
KINDS = {
    "instructions": (".text", lambda n: "nop"),
    "operands": (".text", lambda n: "addi a0,a1,%d" % (n % 2048)),
    "labels": (".text", lambda n: name(n) + ": nop"),
    "global_labels": (".text", lambda n: ".globl %s\n%s: nop" % (name(n), name(n))),
    "wanted_names": (".data", lambda n: ".quad " + name(n)),
    "one_name": (".data", lambda n: ".quad q+%d" % n),
    "differences": (".data", lambda n: "%s: .byte %s-%s" % (name(n), name(n // 2), name(n))),
    "jumps": (".text", lambda n: "%s: j %s" % (name(n), name(n ^ 1))),
    "addresses": (".text", lambda n: "la a0," + name(n)),
    "parts": (".text", lambda n: "%s: auipc a0,%%pcrel_hi(q)\nlw a0,%%pcrel_lo(%s)(a0)" % (name(n), name(n))),
    "numbers": (".data", lambda n: ".byte " + ",".join(["1"] * 100)),
    "sections": (".text", lambda n: ".data\n.zero 1\n.text\nnop"),
    "comments": (".text", lambda n: "#" + "x" * 78),
    "empty_lines": (".text", lambda n: ""),
}


def source(kind, limit):
    """As many whole lines as there is room for."""
    first, line = KINDS[kind]
    text = [first]
    size = len(first) + 1
    n = 0
    while True:
        more = line(n)
        size += len(more) + 1
        if size > limit:
            return "\n".join(text) + "\n"
        text.append(more)
        n += 1


def main():
    folder = sys.argv[1]
    for kind in KINDS:
        for size, limit in (("half", LIMIT // 2), ("whole", LIMIT)):
            with open(os.path.join(folder, "%s_%s.s" % (kind, size)), "w") as file:
                file.write(source(kind, limit))


main()
