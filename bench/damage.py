#!/usr/bin/env python3
"""Objects and scripts with something wrong in them, each run once.

    damage.py [--runs N] [--seed S] [PROGRAM]

The objects are those of the examples and of the stored run of crates/cells, which `cellas`, GNU `as` and gcc made. In each
run one object has one to eight other bytes, or is cut, or has a part twice; or the script has another word, a word or a line
less, or one twice. Without PROGRAM crates/cells is proved and built first. Prints how often each status, each refusal and each
rule on objects came. Fails where a run ends otherwise than by a status of its own, or takes a second of processor time or
more, or 150 MB or more.
"""

import argparse
import collections
import os
import pathlib
import random
import re
import signal
import struct
import subprocess
import sys
import tempfile

TOP = pathlib.Path(__file__).resolve().parent.parent
FOLDERS = [(TOP / "examples" / name, "script") for name in ("first", "swap", "tasks", "transfer", "unload", "plugins", "weak", "recover", "clone")] + [(TOP / "crates/cells/data/d", "s")]
ODD_WORDS = ["", "k", "0", "1", "2", "3", "00", "4294967295", "4294967296", "18446744073709551615", "100001", "0x10000000", "#",
             "k/a", "k/", "/", "=", "strict", "reexport", "transfer", "budget", "recover", "rebuild", "clone", "as", "purge", "map", "tasks", "dumpall", "-", "\x00", "a" * 65]
MOST_SECONDS = 1.0
MOST_MEGABYTES = 150
LONGEST_WAIT = 10
FILE_HEADER = 64
STATUSES = range(6)


def places(chance, image):
    """Where bytes are changed: in the file header, in the section headers, or anywhere."""
    headers, = struct.unpack_from("<Q", image, 40)
    kind = chance.randrange(3)
    if kind == 0:
        return range(min(FILE_HEADER, len(image)))
    if kind == 1 and headers < len(image):
        return range(headers, len(image))
    return range(len(image))


def changed(chance, image):
    image = bytearray(image)
    where = places(chance, image)
    for _ in range(chance.randint(1, 8)):
        image[chance.choice(where)] = chance.choice((0, 1, 0x7F, 0x80, 0xFF, chance.randrange(256)))
    return bytes(image)


def cut(chance, image):
    return image[: chance.randrange(len(image))]


def doubled(chance, image):
    start = chance.randrange(len(image))
    end = chance.randint(start, len(image))
    return image[:end] + image[start:]


def damaged_object(chance, image):
    return chance.choice((changed, changed, changed, cut, doubled))(chance, image)


def damaged_script(chance, text, words):
    lines = text.decode().split("\n")
    number = chance.randrange(len(lines))
    line = lines[number].split(" ")
    word = chance.randrange(len(line))
    kind = chance.randrange(5)
    if kind == 0:
        line[word] = chance.choice(words)
    elif kind == 1:
        del line[word]
    elif kind == 2:
        line.insert(word, line[word])
    lines[number] = " ".join(line)
    if kind == 3:
        del lines[number]
    elif kind == 4:
        lines.insert(chance.randrange(len(lines)), lines[number])
    return "\n".join(lines).encode()


def run(program, folder, script):
    """Its status, its output, processor seconds and megabytes. A run that hangs is killed."""
    child = subprocess.Popen([program, folder, script], stdout=subprocess.PIPE)
    signal.signal(signal.SIGALRM, lambda *_: child.kill())
    signal.alarm(LONGEST_WAIT)
    text = child.stdout.read()
    _, status, usage = os.wait4(child.pid, 0)
    signal.alarm(0)
    child.stdout.close()
    child.returncode = os.waitstatus_to_exitcode(status)
    return child.returncode, text, usage.ru_utime + usage.ru_stime, usage.ru_maxrss / 1024


def read_folders():
    folders = []
    for folder, script in FOLDERS:
        files = {path.name: path.read_bytes() for path in folder.iterdir() if path.suffix == ".o"}
        folders.append((files, (folder / script).read_bytes()))
    return folders


def main():
    parser = argparse.ArgumentParser(description=__doc__, formatter_class=argparse.RawDescriptionHelpFormatter)
    parser.add_argument("--runs", type=int, default=20000, metavar="N")
    parser.add_argument("--seed", type=int, default=0, metavar="S")
    parser.add_argument("program", nargs="?", metavar="PROGRAM")
    wanted = parser.parse_args()
    program = wanted.program
    if program is None:
        crate = TOP / "crates/cells"
        subprocess.run(["rt", "run", "--"], cwd=crate, stdout=subprocess.DEVNULL, stderr=subprocess.DEVNULL)
        program = str(crate / "out/cells")
    chance = random.Random(wanted.seed)
    folders = read_folders()
    words = ODD_WORDS + sorted({word for _, script in folders for word in script.decode().split()})
    counts, bad, most_seconds, most_megabytes = collections.Counter(), [], 0.0, 0.0
    with tempfile.TemporaryDirectory() as top:
        for number, (files, script) in enumerate(folders):
            folder = pathlib.Path(top, str(number))
            folder.mkdir()
            for name, image in files.items():
                (folder / name).write_bytes(image)
            (folder / "script").write_bytes(script)
        for number in range(wanted.runs):
            at = chance.randrange(len(folders))
            files, script = folders[at]
            folder = pathlib.Path(top, str(at))
            if chance.randrange(3) == 0:
                path, before, after = folder / "script", script, damaged_script(chance, script, words)
            else:
                name = chance.choice(sorted(files))
                path, before, after = folder / name, files[name], damaged_object(chance, files[name])
            path.write_bytes(after)
            status, text, seconds, megabytes = run(program, str(folder), "script")
            path.write_bytes(before)
            counts[f"status {status}"] += 1
            for refusal in re.findall(rb"^\d+ (E\d+)", text, re.M):
                counts[refusal.decode()] += 1
            for rule in re.findall(rb"^\d+ E7 object \S+ (rule \d+)", text, re.M):
                counts[rule.decode()] += 1
            most_seconds, most_megabytes = max(most_seconds, seconds), max(most_megabytes, megabytes)
            if status not in STATUSES or seconds >= MOST_SECONDS or megabytes >= MOST_MEGABYTES:
                bad.append(f"run {number} of {path.name}: status {status}, {seconds:.2f} s, {megabytes:.0f} MB")
    for what in sorted(counts, key=lambda what: (what.split()[0].rstrip("0123456789"), int(re.search(r"-?\d+$", what)[0]))):
        print(f"{what:12} {counts[what]:6}")
    print(f"at most {most_seconds:.2f} s of processor time and {most_megabytes:.0f} MB")
    for line in bad:
        print(line)
    sys.exit(1 if bad else 0)


if __name__ == "__main__":
    main()
