#!/usr/bin/env python3
"""Where the minutes of the gate go, crate by crate: proof, tests, edits.

    bench/gate.py run FILE [CRATE..]  runs `rt ci`, or `rt ci CRATE..`, which toolchains from `rattle-kit-13f` on know, shows
                                      what it prints, writes to FILE how long each of its checks took, and prints the table
    bench/gate.py table FILE          prints the table of such a FILE: minutes of one processor for each crate, the chain of
                                      crates that stand on each other whose proofs take longest, and the ten dearest edits
    bench/gate.py functions CRATE..   proves these crates from nothing in a copy, with their tests, and prints the ten
                                      functions of each, tests among them, that took longest

The gate says no times by itself, so this looks once a second at the processes that it starts. The first check of a crate's
edits, which proves it as it stands, counts among the edits.
"""
import collections
import json
import os
import re
import shutil
import subprocess
import sys
import tempfile
import time

TOP = os.path.join(os.path.dirname(os.path.abspath(__file__)), "..")
TICKS = os.sysconf("SC_CLK_TCK")
KINDS = ["proof", "tests", "edits"]


def stat(pid):
    """The parent of a process, when it began, and the processor time that it has used, in seconds."""
    with open(f"/proc/{pid}/stat") as file:
        fields = file.read().rpartition(")")[2].split()
    return int(fields[1]), int(fields[19]) / TICKS, sum(int(n) for n in fields[11:15]) / TICKS


def checks(gate):
    """The checks that the gate runs now, by process and beginning."""
    found = {}
    for pid in filter(str.isdigit, os.listdir("/proc")):
        try:
            with open(f"/proc/{pid}/cmdline", "rb") as file:
                words = file.read().decode(errors="replace").split("\0")
            parent, began, used = stat(pid)
            if parent != gate or "--crate-name" not in words:
                continue
            found[pid, began] = {
                "crate": words[words.index("--crate-name") + 1],
                "kind": kind("--test" in words, os.readlink(f"/proc/{pid}/cwd")),
                "began": began,
                "used": used,
            }
        except (OSError, ValueError):
            continue
    return found


def kind(tests, folder):
    if "/rt-edit" in folder:
        return "edits"
    return "tests" if tests else "proof"


def run(path, *crates):
    gate, seen = subprocess.Popen(["rt", "ci", *crates]), {}
    while gate.poll() is None:
        with open("/proc/uptime") as file:
            now = float(file.read().split()[0])
        for key, check in checks(gate.pid).items():
            seen[key] = {**check, "ended": now}
        time.sleep(1)
    with open(path, "w") as file:
        json.dump(list(seen.values()), file)
    return gate.returncode


def table(path):
    with open(path) as file:
        seen = json.load(file)
    if not seen:
        print("no check took a second")
        return
    spent = collections.defaultdict(lambda: collections.defaultdict(float))
    for check in seen:
        spent[check["crate"]][check["kind"]] += check["used"] / 60

    def line(name, row):
        print(f"{name:24}" + "".join(f"{row[kind]:9.1f}" for kind in KINDS) + f"{sum(row.values()):9.1f}")

    print(f"{'minutes of one processor':24}" + "".join(f"{kind:>9}" for kind in KINDS) + f"{'all':>9}")
    for crate, row in sorted(spent.items(), key=lambda item: -sum(item[1].values())):
        line(crate, row)
    line("all", {kind: sum(row[kind] for row in spent.values()) for kind in KINDS})
    print(f"from the first check to the last: {(max(c['ended'] for c in seen) - min(c['began'] for c in seen)) / 60:.1f} minutes")
    minutes, crates = longest_chain({crate: row["proof"] for crate, row in spent.items()})
    print(f"the longest chain of proofs: {minutes:.1f} minutes, {len(crates)} crates: {' '.join(crates)}")
    print("the dearest edits, in seconds of one processor; the first of a crate pays for the proof of the whole crate:")
    for edit, seconds in sorted(edits(seen), key=lambda pair: -pair[1])[:10]:
        print(f"{seconds:9.1f} {edit}")


def edits(seen):
    """The edits of each crate with the processor time of their checks. They are tried in the order of their names, and the
    crate as it stands comes last."""
    tried = collections.defaultdict(list)
    for check in sorted(seen, key=lambda check: check["began"]):
        if check["kind"] == "edits":
            tried[check["crate"]].append(check["used"])
    for crate, times in tried.items():
        names = sorted(name for name in os.listdir(os.path.join(TOP, "crates", crate, "must-fail")) if name.endswith(".edit"))
        yield from ((f"{crate}/{name}", used) for name, used in zip(names, times))


def functions(crate):
    """Proves a crate with its tests in a copy that has no more than the libraries below, and prints which functions are dear."""
    with tempfile.TemporaryDirectory(prefix="cells-functions-") as room:
        kept = lambda folder, names: [name for name in names if name == "incremental"] if os.path.basename(folder) == "out" else []
        shutil.copytree(os.path.join(TOP, "crates"), os.path.join(room, "crates"), ignore=kept)
        for name in ("crates.txt", "HANDLES"):
            shutil.copy(os.path.join(TOP, name), room)
        words = ["rt", "check", "--test", "--progress", "--jobs", "1"]
        check = subprocess.Popen(words, cwd=os.path.join(room, "crates", crate), stdout=subprocess.PIPE, stderr=subprocess.STDOUT, text=True)
        took, last = {}, None
        for line in check.stdout:
            now, found = time.monotonic(), re.match(r"checked (\S+), \d+ of \d+", line)
            if found and last:
                took[found[1]] = now - last
            if found or line.startswith("ahead"):
                last = now
        print(f"{crate}: {sum(took.values()):.0f} seconds for {len(took)} functions" + (", NOT PROVED" if check.wait() else ""))
        for name, seconds in sorted(took.items(), key=lambda pair: -pair[1])[:10]:
            print(f"{seconds:9.1f} {name}")


def libraries():
    """The crates that each crate stands on, by crates.txt."""
    found = {}
    with open(os.path.join(TOP, "crates.txt")) as file:
        for line in file:
            name, _, below = line.partition("#")[0].partition(":")
            if name.split():
                found[name.split()[0]] = below.split()
    return found


def longest_chain(proofs):
    below, longest = libraries(), {}

    def of(crate):
        if crate not in longest:
            minutes, crates = max((of(low) for low in below[crate] if low in below), key=lambda chain: chain[0], default=(0, []))
            longest[crate] = minutes + proofs.get(crate, 0), crates + [crate]
        return longest[crate]

    return max((of(crate) for crate in below), key=lambda chain: chain[0])


def main():
    if len(sys.argv) > 2 and sys.argv[1] == "functions":
        for crate in sys.argv[2:]:
            functions(crate)
        return
    if len(sys.argv) < 3 or sys.argv[1] not in ("run", "table"):
        sys.exit(__doc__)
    status = run(*sys.argv[2:]) if sys.argv[1] == "run" else 0
    table(sys.argv[2])
    sys.exit(status)


main()
