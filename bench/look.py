#!/usr/bin/env python3
"""Compares what scripts/look says of command lines and scripts with what the program does.

    bench/look.py PROGRAM [COUNT [SEED]]

It draws COUNT command lines and as many scripts, 500 where nothing else is said, and runs both on each. Where the program
ends with status 2, or can't list the folder, scripts/look has to say the same line and status; else it has to leave the program to it.
Sizes above the limits are left to the program too. It ends with status 1 where one differs.
"""
import argparse
import os
import random
import subprocess
import sys
import tempfile

TOP = os.path.dirname(os.path.dirname(os.path.abspath(__file__)))
LOOK = ["python3", "-I", "-S", "-X", "utf8", os.path.join(TOP, "scripts", "look"), "cells"]
USAGE = b"usage: cells DIR SCRIPT [--base HEX] [--pages N] | --generate N --seed S\n"
WORDS = [
    "d", "script", "--base", "--base=0x1000", "0x1000", "0x0", "0x10000000", "0x8000000A", "--pages", "16", "15",
    "--pages=4096", "4097", "--generate", "1", "400", "401", "--seed", "0", "18446744073709551615", "18446744073709551616",
    "--", "-", "-x", "", "--help", "x", "--pages=", "--generate=2", "--seed=3", "nowhere", "./script", "Script", "--base=",
    "016", "größe", b"\xff"]
CALLS = [
    ["d", "script"], ["--generate", "1", "--seed", "0"], ["--seed=0", "--generate=1"], ["--", "d", "script"], ["d", "Script"],
    ["d", "script", "--base", "0x2000"], ["d", "none"], ["nowhere", "script"], ["d/script", "script"], ["", "script"], ["d", ""]]
LINES = [
    "ns n under k", "clone n as m", "load k a", "spawn k a::f 0x1f", "step 1 100000", "run 10000", "kill 1", "recover 1", "rebuild 4294967295", "purge", "find k a::f", "map",
    "tasks", "swap k/a=k#b.o reexport strict transfer a::f transfer b budget 7", "swap k/a=k#b.o k/b=c=d", "unload k/a k/b",
    "unload k/a", "deps 4294967295", "users 0", "dump 1 2", "dumpall", "# x", " #", "\tmap ", "",
    "swap k/a=k#b.o transfer strict budget 5", "swap k/a=b transfer a transfer b", "spawn k x 18446744073709551615"]
PARTS = [
    "k", "k/a", "k/a=f", "a::f", "0", "01", "100001", "10001", "4294967296", "18446744073709551616", "0x0", "0x", "0xF",
    "0x00", "#", "=", "/", "k/a/b", "k/=x", "K", "a" * 64, "a" * 65, "b" * 255, "b" * 256, "c" * 1024, "c" * 1025, "\x7f",
    "~", "!", "\r", "\0", "é", "transfer", "budget", "strict", "reexport", "under", "as", "map", "swap", "unload", "100000",
    "10000", "k/a=", "\v", "\f"]


def line():
    """A line of a script, changed in up to two words."""
    words = random.choice(LINES).split(" ")
    for _ in range(random.randint(0, 2)):
        at, way = random.randrange(len(words)), random.random()
        if way < 0.4:
            words.insert(at, random.choice(PARTS))
        elif way < 0.7:
            words[at] = random.choice(PARTS)
        elif len(words) > 1:
            words.pop(at)
    return random.choice([" ", "  ", "\t", " "]).join(words)


def differs(program, words, place):
    """Whether scripts/look says something else than the program does."""
    done = subprocess.run([program, *words], cwd=place, capture_output=True)
    said = subprocess.run([*LOOK, *words], cwd=place, capture_output=True)
    if said.returncode == 0:
        return done.returncode == 2 or said.stdout != b""
    wanted = (2, USAGE) if said.returncode == 64 else (said.returncode, said.stdout)
    return (done.returncode, done.stdout) != wanted or said.stderr == b""


def main():
    parser = argparse.ArgumentParser(description=__doc__, formatter_class=argparse.RawDescriptionHelpFormatter)
    parser.add_argument("program", metavar="PROGRAM")
    parser.add_argument("count", nargs="?", type=int, default=500, metavar="COUNT")
    parser.add_argument("seed", nargs="?", type=int, default=1, metavar="SEED")
    told = parser.parse_args()
    program, count, wrong = os.path.abspath(told.program), told.count, 0
    random.seed(told.seed)
    with tempfile.TemporaryDirectory() as place:
        os.mkdir(os.path.join(place, "d"))
        script = os.path.join(place, "d", "script")
        with open(script, "w") as file:
            file.write("map\n")
        for words in CALLS + [random.choices(WORDS, k=random.randint(1, 5)) for _ in range(count)]:
            if differs(program, words, place):
                wrong += 1
                print("differs:", words)
        for _ in range(count):
            text = "\n".join(line() for _ in range(random.choice([1, 1, 1, 2, 3]))) + random.choice(["", "\n"])
            with open(script, "wb") as file:
                file.write(text.encode())
            if differs(program, ["d", "script"], place):
                wrong += 1
                print("differs:", repr(text))
    print(f"{len(CALLS) + count} command lines and {count} scripts, {wrong} wrong")
    sys.exit(1 if wrong else 0)


if __name__ == "__main__":
    main()
