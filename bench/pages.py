#!/usr/bin/env python3
"""Compares the transcripts in the pages with what the program prints.

    bench/pages.py [--cellas PROGRAM] [PROGRAM [PAGE..]]

PROGRAM is a built `cells`, crates/cells/out/cells unless it is said; the assembler is the `cellas` beside it, or the one in
crates/cellas/out, and so is `cellaudit`. The pages are README.md and the others at the top, docs/*.md and those of the examples.

A comment on a line of its own says what the fenced block behind it is. FOLDER is named from the top of the checkout. Each page
works on a copy of examples/ of its own, so that nothing which it makes there is seen by another one.

    <!-- run: WORDS -->             what `./cells WORDS` prints, as <!-- run: examples/swap script -->
    <!-- audit: WORDS -->           what `./cellaudit WORDS` prints
    <!-- tool: WORDS -->            what `tools/WORDS` prints, as <!-- tool: sweep examples/sweep script -->; CELLS names PROGRAM
    <!-- file: FOLDER/NAME -->      that file
    <!-- new: FOLDER/NAME -->       makes that file of the block, for the runs behind it
    <!-- more: FOLDER/NAME -->      puts the block behind what the file holds
    <!-- object: FOLDER/NAME -->    makes that object file of the block, a source for `cellas`
    <!-- copy: FROM to TO -->       copies a file, for the runs behind it; no block belongs to it

Options stand behind the words, each after a semicolon, as <!-- run: examples/swap script; answers 2 to 4; status 0 -->:

    answers A to B, answers A       of a run, the answers to these lines of the script alone
    status N                        the run ends with this status
    without FOLDER/NAME             the file isn't there for this run
    lines A to B, lines A           of a file, or of what a tool prints, these lines alone

What a page doesn't show may stand in the comment itself, for `new`, `more` and `object`: the first line is without its ` -->`,
then come the lines, and then a line `-->`.

It prints each block that differs, and which blocks look like transcripts and have no mark. It ends with status 1 where a
block differs or a mark can't be followed.
"""
import argparse
import difflib
import glob
import os
import re
import shutil
import subprocess
import sys
import tempfile

TOP = os.path.dirname(os.path.dirname(os.path.abspath(__file__)))
PAGES = ["*.md", "docs/*.md", "examples/*/*.md"]
COMPARED = ("run", "audit", "tool", "file")
MADE = ("new", "more", "object")
KINDS = "|".join(COMPARED + MADE + ("copy",))
MARK = re.compile(r"<!-- (%s): (.*?)( -->)?" % KINDS)
LIKE_A_MARK = re.compile(r"<!-- *(%s)\b" % KINDS)
OPTION = re.compile(r"(answers|lines) (\d+)(?: to (\d+))?|(status) (\d+)|(without) (\S+)")
ANSWER = re.compile(rb"(\d+) (ok|E\d+)( |$)")


class Wrong(Exception):
    """A mark that can't be followed."""


def blocks(text):
    """The fenced blocks of a page, the comments that hold one, and those that need none: line, mark or none, and bytes."""
    lines, at, mark = text.split(b"\n"), 0, None
    while at < len(lines):
        line, number = lines[at].decode(errors="replace").strip(), at + 1
        found = MARK.fullmatch(line)
        hides = bool(found) and not found[3] and found[1] in MADE
        if hides or line.startswith("```"):
            indent = len(lines[at]) - len(lines[at].lstrip())
            last = b"-->" if hides else b"```"
            at = next((end for end in range(number, len(lines)) if lines[end].strip() == last), None)
            if at is None:
                raise Wrong(f"line {number}: this block has no end")
            yield number, found if hides else mark, b"".join(each[indent:] + b"\n" for each in lines[number:at])
        elif mark and line:
            raise Wrong(f"line {number}: the block of the mark above has to come first")
        elif LIKE_A_MARK.match(line) and not (found and found[3]):
            raise Wrong(f"line {number}: no mark is spelled so")
        if found and found[1] == "copy":
            yield number, found, b""
        elif line:
            mark = found if found and not hides else None
        at += 1
    if mark:
        raise Wrong("the last mark has no block")


def options(text):
    """The words of a mark, and its options."""
    words, *rest = [part.strip() for part in text.split(";")]
    told = {}
    for option in rest:
        found = OPTION.fullmatch(option)
        if not found:
            raise Wrong(f"no option is spelled '{option}'")
        if found[1]:
            told[found[1]] = int(found[2]), int(found[3] or found[2])
        elif found[4]:
            told["status"] = int(found[5])
        else:
            told.setdefault("without", []).append(found[7])
    return words, told


def answers(text, first, last):
    """The answers to these lines of the script."""
    kept, number = [], 0
    for line in text.splitlines(keepends=True):
        answer = ANSWER.match(line)
        number = int(answer[1]) if answer else number
        if first <= number <= last:
            kept.append(line)
    return b"".join(kept)


def lines(text, told):
    """The lines of a text that are asked for."""
    first, last = told.get("lines", (1, sys.maxsize))
    return b"".join(text.splitlines(keepends=True)[first - 1 : last])


class Page:
    """A page, the folder that it works on, and the programs."""

    def __init__(self, name, folder, cells, cellas, cellaudit):
        self.name, self.folder, self.cells, self.cellas, self.cellaudit = name, folder, cells, cellas, cellaudit
        shutil.copytree(os.path.join(TOP, "examples"), os.path.join(folder, "examples"))

    def path(self, name):
        path = os.path.join(self.folder, name)
        os.makedirs(os.path.dirname(path), exist_ok=True)
        return path

    def run(self, program, words):
        return subprocess.run([program, *words], cwd=self.folder, stdout=subprocess.PIPE, stdin=subprocess.DEVNULL)

    def transcript(self, words, told):
        for name in told.get("without", []):
            os.rename(self.path(name), self.path(os.path.join("aside", name)))
        done = self.run(self.cells, words.split())
        for name in told.get("without", []):
            os.rename(self.path(os.path.join("aside", name)), self.path(name))
        if done.returncode != told.get("status", done.returncode):
            raise Wrong(f"`./cells {words}` ends with status {done.returncode}")
        return answers(done.stdout, *told["answers"]) if "answers" in told else done.stdout

    def audit(self, words, told):
        if not os.access(self.cellaudit, os.X_OK):
            raise Wrong(f"there is no program {self.cellaudit}; ./build builds it")
        done = self.run(self.cellaudit, words.split())
        if done.returncode != told.get("status", done.returncode):
            raise Wrong(f"`./cellaudit {words}` ends with status {done.returncode}")
        return done.stdout

    def printed(self, words, told):
        """What a tool prints. A transcript that it reads may be made before, by `new`."""
        name, *rest = words.split()
        done = subprocess.run([os.path.join(TOP, "tools", name), *rest], cwd=self.folder, capture_output=True,
                              stdin=subprocess.DEVNULL, env=os.environ | {"CELLS": self.cells})
        if done.returncode != told.get("status", 0):
            said = done.stderr.decode(errors="replace").strip()
            raise Wrong(f"`tools/{words}` ends with status {done.returncode}: {said}")
        return lines(done.stdout, told)

    def text(self, name, told):
        with open(os.path.join(TOP, name), "rb") as file:
            return lines(file.read(), told)

    def copy(self, words):
        before, _, after = words.partition(" to ")
        shutil.copy(self.path(before), self.path(after))

    def make(self, kind, name, block):
        if kind == "object":
            if not os.access(self.cellas, os.X_OK):
                raise Wrong(f"there is no assembler {self.cellas}; ./build builds it, or --cellas names one")
            with open(self.path("source.s"), "wb") as file:
                file.write(block)
            done = self.run(self.cellas, [self.folder, "source.s"])
            if done.returncode != 0:
                raise Wrong(f"cellas says {done.stdout.decode(errors='replace').strip()}")
            block = done.stdout
        with open(self.path(name), "ab" if kind == "more" else "wb") as file:
            file.write(block)

    def follow(self, mark, block):
        """Does what a mark says. The answer is what its block has to be, or none where that isn't compared."""
        words, told = options(mark[2])
        if mark[1] == "run":
            return self.transcript(words, told)
        if mark[1] == "audit":
            return self.audit(words, told)
        if mark[1] == "tool":
            return self.printed(words, told)
        if mark[1] == "file":
            return self.text(words, told)
        if mark[1] == "copy":
            return self.copy(words)
        return self.make(mark[1], words, block)

    def check(self, text):
        """How many blocks were compared, how many of them differ, and the lines of transcripts without a mark."""
        compared, different, unmarked = 0, 0, []
        for line, mark, block in blocks(text):
            if not mark:
                if ANSWER.match(block):
                    unmarked.append(line)
                continue
            try:
                wanted = self.follow(mark, block)
            except (Wrong, OSError) as fault:
                raise Wrong(f"line {line}: {fault}") from fault
            if wanted is not None:
                compared += 1
                different += wanted != block
            if wanted not in (None, block):
                show(f"{self.name}:{line}: differs from {mark[0]}", block, wanted)
        return compared, different, unmarked


def show(what, block, wanted):
    print(what)
    before, after = (part.decode(errors="replace").splitlines() for part in (block, wanted))
    for line in difflib.unified_diff(before, after, "the page", "what it has to be", lineterm="", n=1):
        print("    " + line)


def main():
    parser = argparse.ArgumentParser(description=__doc__, formatter_class=argparse.RawDescriptionHelpFormatter)
    parser.add_argument("--cellas", metavar="PROGRAM")
    parser.add_argument("cells", nargs="?", default=os.path.join(TOP, "crates/cells/out/cells"), metavar="PROGRAM")
    parser.add_argument("pages", nargs="*", metavar="PAGE")
    words = parser.parse_args()
    cells = os.path.abspath(words.cells)
    if not os.access(cells, os.X_OK):
        sys.exit(f"pages.py: there is no program {words.cells}; ./build builds it, or name a built one")

    def built(name):
        beside = os.path.join(os.path.dirname(cells), name)
        return beside if os.path.exists(beside) else os.path.join(TOP, "crates", name, "out", name)

    cellas, cellaudit = os.path.abspath(words.cellas or built("cellas")), built("cellaudit")
    pages = words.pages or sorted(path for form in PAGES for path in glob.glob(os.path.join(TOP, form)))
    compared, different, faults = 0, 0, 0
    for path in pages:
        name = os.path.relpath(path, TOP)
        with open(path, "rb") as file, tempfile.TemporaryDirectory() as folder:
            try:
                more, wrong, unmarked = Page(name, folder, cells, cellas, cellaudit).check(file.read())
            except Wrong as fault:
                print(f"{name}: {fault}")
                faults += 1
                continue
        compared, different = compared + more, different + wrong
        if unmarked:
            print(f"{name}: transcripts without a mark, at lines {', '.join(map(str, unmarked))}")
    print(f"{compared} blocks compared, {different} differ" + (f"; {faults} pages with a wrong mark" if faults else ""))
    sys.exit(1 if different or faults else 0)


if __name__ == "__main__":
    main()
