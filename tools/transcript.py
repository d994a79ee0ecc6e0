"""What a transcript of `cells` says, for the tools beside this file; docs/COMMANDS.md has each line of it."""
import os
import re
import signal
import subprocess
import sys
from dataclasses import dataclass, field

TOP = os.path.dirname(os.path.dirname(os.path.abspath(__file__)))
COMMANDS = "ns|clone|load|spawn|step|run|kill|swap|recover|rebuild|unload|purge|find|map|tasks|deps|users|dump|dumpall"
ANSWER = re.compile(rf"(\d+) (?:ok ({COMMANDS})\b|E(\d+) )(.*)")
CELL = re.compile(r"  #(\d+) (\w+)/(\w+) (attached|detached (\d+)) (\S+)$")
SECTION = re.compile(r"    (\d+) (rx|rw|ro) ([0-9a-f]+) (\d+)$")
LINK = re.compile(r"  #(\d+)\.(\d+)\+([0-9a-f]+) (\w+) -> #(\d+)\.(\d+)$")
TASK = re.compile(r"  t(\d+) (?:(ready) pc|(fault) (\S+) at) ([0-9a-f]+) root #(\d+)$")
# A `recover` and a `rebuild` name their task before.
SWAP = re.compile(r"(?: t(\d+) swap)? (\d+) new (.*) patched (\d+) removed (.*) kept (.*)$")
SWAPS = ("swap", "recover", "rebuild")
TURNS = re.compile(r" *t(\d+) turns (\d+) (?:(ready)|(done) (\d+)|(fault) (\S+) at ([0-9a-f]+))$")
OUT = re.compile(r"  out t(\d+) (.*)$")


class Wrong(Exception):
    """What a person has to know instead of what a tool makes."""


@dataclass
class Answer:
    """One answer: the line of its command, and the lines below it with their numbers in the transcript."""
    at: int
    line: int
    command: str | None
    refusal: int | None
    rest: str
    below: list = field(default_factory=list)


@dataclass
class Section:
    number: int
    permission: str
    start: int
    size: int


@dataclass
class Cell:
    number: int
    namespace: str
    stem: str
    swap: int | None
    file: str
    sections: list

    def has(self, address):
        """The section in which an address lies, or none."""
        return next((s for s in self.sections if s.start <= address < s.start + s.size), None)


@dataclass(frozen=True)
class Link:
    user: int
    section: int
    offset: int
    kind: str
    target: int
    target_section: int


@dataclass
class Task:
    """A task as `tasks` shows it; `cause` is none where it is ready."""
    number: int
    cause: str | None
    pc: int
    root: int


@dataclass
class Turns:
    """What a task did in a `step` or `run`, and what it has put out in it."""
    number: int
    turns: int
    state: str
    code: str | None
    cause: str | None
    at: str | None
    out: str = ""


def parsed(pattern, number, text):
    row = pattern.match(text)
    if not row:
        raise Wrong(f"line {number} of it is no line of a transcript: {text}")
    return row


def read(text):
    """The answers of a transcript. A last line without its end was cut off."""
    answers = []
    for number, line in enumerate(text.split("\n")[:-1], 1):
        if line.startswith("  ") and answers:
            answers[-1].below.append((number, line))
            continue
        row = ANSWER.match(line)
        if not row:
            raise Wrong(f"it is no transcript: line {number} is neither an answer nor a part of one: {line[:80]}")
        answers.append(Answer(number, int(row[1]), row[2], row[3] and int(row[3]), row[4], []))
    return answers


def read_file(name):
    """The text of a transcript: a file, or standard input where none is named."""
    try:
        with open(name or 0, encoding="utf-8") as file:
            return file.read()
    except OSError as error:
        raise Wrong(f"it can't be read: {error.strerror}") from None
    except UnicodeDecodeError:
        raise Wrong("it is no transcript: it isn't text") from None


def cells_of(answer):
    """The cells that a `map` shows."""
    cells = []
    for number, line in answer.below:
        if line.startswith("    ") and cells:
            row = parsed(SECTION, number, line)
            cells[-1].sections.append(Section(int(row[1]), row[2], int(row[3], 16), int(row[4])))
        else:
            row = parsed(CELL, number, line)
            cells.append(Cell(int(row[1]), row[2], row[3], row[5] and int(row[5]), row[6], []))
    return cells


def links_of(answer):
    """The links that `deps` and `users` show."""
    rows = [parsed(LINK, number, line) for number, line in answer.below]
    return [Link(int(r[1]), int(r[2]), int(r[3], 16), r[4], int(r[5]), int(r[6])) for r in rows]


def tasks_of(answer):
    """The tasks that `tasks` shows."""
    rows = [parsed(TASK, number, line) for number, line in answer.below]
    return [Task(int(row[1]), row[4], int(row[5], 16), int(row[6])) for row in rows]


def turns_of(answer):
    """What `step` and `run` tell of tasks."""
    lines = [(answer.at, answer.rest)] if answer.command == "step" else []
    told = []
    for number, line in lines + answer.below:
        if line.startswith("  out "):
            told[-1].out = parsed(OUT, number, line)[2]
        else:
            row = parsed(TURNS, number, line)
            told.append(Turns(int(row[1]), int(row[2]), row[3] or row[4] or row[6], row[5], row[7], row[8]))
    return told


def numbers(text):
    """The cells of a list, as `#1 #2`; `-` is the empty one."""
    return [int(number) for number in re.findall(r"#(\d+)", text)]


def came(answer):
    """The cells that came with a command."""
    if answer.command in ("load", "clone"):
        return numbers(answer.rest.partition(" patched ")[0])
    return numbers(parsed(SWAP, answer.at, answer.rest)[3]) if answer.command in SWAPS else []


def went(answer):
    """The cells that went with a command."""
    if answer.command in SWAPS:
        return numbers(parsed(SWAP, answer.at, answer.rest)[5])
    return numbers(answer.rest) if answer.command in ("unload", "purge") else []


def built_program():
    """The program that CELLS names, or that ./build has built, or none."""
    built = os.path.join(TOP, "crates", "cells", "out", "cells")
    return os.environ.get("CELLS") or (built if os.access(built, os.X_OK) else None)


def run(folder, script):
    """Runs the program: what it wrote, and its status. Where none is built, ./cells takes its time."""
    program = built_program() or os.path.join(TOP, "cells")
    try:
        done = subprocess.run([program, folder, script], stdin=subprocess.DEVNULL, stdout=subprocess.PIPE)
    except OSError as error:
        raise Wrong(f"the program {program} can't be run: {error.strerror}") from None
    return done.stdout.decode(errors="replace"), done.returncode


def do(tool, name, work):
    """Does a tool's work on a file of that name, or on standard input, and says what is wrong. A reader may end before it."""
    signal.signal(signal.SIGPIPE, signal.SIG_DFL)
    try:
        work()
    except Wrong as wrong:
        sys.exit(f"{tool}: {name or 'standard input'}: {wrong}")
