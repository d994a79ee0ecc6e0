#!/usr/bin/env python3
"""Draws the machine at each `map` of a transcript.

    tools/draw.py [-o PREFIX] [-s SCRIPT] [--dot] [TRANSCRIPT]

TRANSCRIPT is what `cells` has written, from standard input where it isn't given. For each `map` in it one drawing is
written, PREFIX-L.svg, where L is the number of the `map`'s line; the names are printed. PREFIX is the transcript's name without
its ending, or `machine`. It needs Graphviz: Debian's package graphviz. With --dot it prints the drawings in Graphviz's language
instead, and needs nothing.

A drawing has a box for each namespace, and in it the cells with their sections that aren't empty: green where they are
attached, grey and dashed where a swap has put them aside. A namespace stands in the box of its parent where the script, a file
that -s names, tells the parent; a transcript doesn't. Arrows are links from section to section, with their kinds; those of a
cell to itself are left out. A dotted arrow leads from a cell that was put aside to the one in its place. A task points to the
section where its pc is, and is red where it has faulted. A dashed cell says who is seen to hold it: tasks that began or stand in
it, cells with a link into it, and whom an `E15` names; an address in a register or in data is seen by an `E15` alone. A cell
whose `deps` weren't asked says so: its links may lack.

Links come from `deps` and `users`, tasks from `tasks`. They are drawn where nothing between them and the `map` has changed
them, before it or behind it. So the commands for one drawing stand together in the script, as

    map
    tasks
    deps 1
    deps 2
"""
import argparse
import collections
import html
import os
import re
import shutil
import subprocess

import transcript
from transcript import Wrong

CHANGE_CELLS = {"load", "clone", "swap", "recover", "rebuild", "unload", "purge"}
CHANGE_TASKS = {"spawn", "step", "run", "kill", "recover", "rebuild"}
PERMISSIONS = {"rx": "code", "ro": "constants", "rw": "data"}
NAMESPACE = re.compile(r"[ \t]*ns[ \t]+(\w+)[ \t]+under[ \t]+(\w+)[ \t]*$")
ATTACHED, ASIDE, READY, FAULT = ("#cfe8cf", "#3c763d"), ("#e4e4e4", "#777777"), ("#d9e8f6", "#31708f"), ("#f6d5d5", "#a94442")


def around(answers, at, changes):
    """The answers before and behind one, up to where a command has changed what they show."""
    first = last = at
    while first > 0 and answers[first].command not in changes:
        first -= 1
    while last + 1 < len(answers) and answers[last + 1].command not in changes:
        last += 1
    return answers[first : last + 1]


def links_of(answers):
    return {link for answer in answers if answer.command in ("deps", "users") for link in transcript.links_of(answer)}


def tasks_of(answers):
    told = [answer for answer in answers if answer.command == "tasks"]
    return transcript.tasks_of(told[-1]) if told else []


def holders_of(cell, answers, links, tasks):
    """Who is seen to hold a cell: tasks that began or stand in it, cells with a link into it, and what an `E15` names."""
    holders = {f"t{task.number}" for task in tasks if task.root == cell.number or cell.has(task.pc)}
    holders |= {f"#{link.user}" for link in links if link.target == cell.number != link.user}
    told = (answer.rest.split() for answer in answers if answer.refusal == 15)
    holders |= {words[2] for words in told if words[1] == f"#{cell.number}"}
    return " ".join(sorted(holders)) or "nobody who is shown"


def cell_node(cell, notes):
    """A table: a head, a row with a port for each section that isn't empty, and one for each note."""
    head, edge = ATTACHED if cell.swap is None else ASIDE
    state = "attached" if cell.swap is None else f"put aside by swap {cell.swap}"
    small = '<tr><td{} align="left"><font point-size="{}">{}</font></td></tr>'
    rows = "".join(
        small.format(f' port="s{s.number}"', 10, f'{s.number} {PERMISSIONS[s.permission]} <font face="monospace">{s.start:x}'
                     f'</font>, {s.size} bytes') for s in cell.sections if s.size)
    rows += "".join(small.format("", 9, f"<i>{html.escape(note)}</i>") for note in notes)
    style = ' style="dashed"' if cell.swap is not None else ""
    return (f'c{cell.number} [label=<<table border="1" color="{edge}" bgcolor="white" cellborder="0" cellspacing="0" '
            f'cellpadding="4"{style}><tr><td port="head" bgcolor="{head}"><b>#{cell.number}&#160;{cell.stem}</b><br/>'
            f'<font point-size="9" color="#555555">{state}, {html.escape(cell.file)}</font></td></tr>{rows}</table>>]')


def link_edges(links, cells):
    counted = collections.defaultdict(collections.Counter)
    for link in links:
        if link.user != link.target and {link.user, link.target} <= cells.keys():
            counted[link.user, link.section, link.target, link.target_section][link.kind] += 1
    for (user, section, target, target_section), kinds in sorted(counted.items()):
        label = "\\n".join(kind if count == 1 else f"{count} {kind}" for kind, count in kinds.items())
        yield f'{port(cells[user], section)} -> {port(cells[target], target_section)} [label="{label}"]'


def port(cell, number):
    """The row of a section, or the cell's head where an empty section has none."""
    has_row = any(s.number == number and s.size for s in cell.sections)
    return f"c{cell.number}:s{number}" if has_row else f"c{cell.number}:head"


def task_lines(tasks, cells):
    for task in tasks:
        cell, section = next(((c, c.has(task.pc)) for c in cells.values() if c.has(task.pc)), (None, None))
        state = f"fault {task.cause}" if task.cause else "ready"
        where = "" if cell else "\\nin no section"
        fill, edge = FAULT if task.cause else READY
        yield (f't{task.number} [shape=box, style="rounded,filled", fillcolor="{fill}", color="{edge}", '
               f'label="t{task.number} {state}\\npc {task.pc:x}{where}"]')
        if cell:
            yield f't{task.number} -> {port(cell, section.number)} [color="{edge}", penwidth=1.6]'
        if task.root in cells and (not cell or cell.number != task.root):
            yield (f't{task.number} -> c{task.root}:head [color="{edge}", fontcolor="{edge}", style=dashed, arrowhead=open, '
                   'label="root"]')


def replaced(cells, swaps):
    """From each cell that a swap put aside to the one of its stem that the swap brought."""
    for old in cells.values():
        for number in swaps.get(old.swap, ()):
            new = cells.get(number)
            if new and (new.namespace, new.stem) == (old.namespace, old.stem):
                yield (f'c{old.number} -> c{number} [style=dotted, color="#777777", fontcolor="#777777", '
                       f'constraint=false, label="swap {old.swap}"]')


def notes_of(cell, unchanged, links, tasks):
    """What stands below the sections of a cell."""
    asked = any(answer.command == "deps" and answer.rest.strip() == f"#{cell.number}" for answer in unchanged)
    notes = [] if asked else [f"deps {cell.number} wasn't asked"]
    return notes + ([f"held by {holders_of(cell, unchanged, links, tasks)}"] if cell.swap is not None else [])


def clusters(nodes, parents, parent=None):
    """The boxes of the namespaces whose parent is that one, each in the box of its parent."""
    for namespace in sorted(name for name in nodes if parents.get(name) == parent):
        yield (f'subgraph "cluster_{namespace}" {{ label="namespace {namespace}"; labeljust=l; style="rounded,filled"; '
               'color="#bbbbbb"; fillcolor="#f8f8f4"; margin=14')
        yield from nodes[namespace] or [f'"none_{namespace}" [label="no cells", fontcolor="#777777"]']
        yield from clusters(nodes, parents, namespace)
        yield "}"


def legend():
    """What the colours and lines mean."""
    rows = [(ATTACHED[0], "attached"), (ASIDE[0], "put aside by a swap, and dashed"), (READY[0], "task that is ready: to its pc"),
            (FAULT[0], "task that has faulted"), ("white", "arrow: link, with its kinds"),
            ("white", "dashed arrow: to the task's root"), ("white", "dotted arrow: to the cell in its place")]
    row = '<tr><td bgcolor="{}">&#160;&#160;&#160;</td><td align="left">{}</td></tr>'
    cells = "".join(row.format(*each) for each in rows)
    return ('legend [label=<<table border="1" color="#bbbbbb" cellborder="0" cellspacing="3" cellpadding="1"><tr><td colspan="2" '
            f'align="left"><b>legend</b></td></tr>{cells}</table>>, fontsize=9]')


def drawing(answers, at, parents, swaps):
    """The machine at one `map`, in the language of dot. `parents` has each namespace's parent, and none for the outermost."""
    cells = {cell.number: cell for cell in transcript.cells_of(answers[at])}
    unchanged, standing = around(answers, at, CHANGE_CELLS), around(answers, at, CHANGE_TASKS)
    links, tasks = links_of(unchanged), tasks_of(standing)
    title = f"the map at line {answers[at].line} of the script"
    if not any(answer.command == "tasks" for answer in standing):
        title += "\\ntasks weren't asked for"
    lines = ["rankdir=LR", 'fontname="sans-serif"', "fontsize=11", f'label="{title}"', "nodesep=0.35", "ranksep=0.9",
             'node [shape=plaintext, fontname="sans-serif", fontsize=11, margin=0.08]',
             'edge [fontname="sans-serif", fontsize=9, color="#444444", arrowsize=0.7]']
    nodes = {namespace: [] for namespace in parents.keys() | {cell.namespace for cell in cells.values()}}
    for cell in cells.values():
        nodes[cell.namespace].append(cell_node(cell, notes_of(cell, unchanged, links, tasks)))
    lines += clusters(nodes, parents)
    lines += task_lines(tasks, cells)
    lines += link_edges(links, cells)
    lines += replaced(cells, swaps)
    lines.append(legend())
    return "digraph machine {\n" + "\n".join(lines) + "\n}\n"


def parents_in(script):
    """The parent of each namespace that a script adds."""
    rows = (NAMESPACE.match(line) for line in script.split("\n"))
    return {row[1]: row[2] for row in rows if row}


def drawings(answers, told):
    """The line of each `map`, and its drawing. `told` has parents of namespaces, which no transcript has."""
    parents, swaps = {"k": None}, {}
    for at, answer in enumerate(answers):
        if answer.command == "ns":
            parents[answer.rest.strip()] = told.get(answer.rest.strip())
        elif answer.command in transcript.SWAPS:
            row = transcript.parsed(transcript.SWAP, answer.at, answer.rest)
            swaps[int(row[2])] = transcript.numbers(row[3])
        elif answer.command == "map":
            yield answer.line, drawing(answers, at, dict(parents), dict(swaps))


def write(prefix, number, text):
    name = f"{prefix}-{number}.svg"
    done = subprocess.run(["dot", "-Tsvg", "-o", name], input=text, capture_output=True, text=True)
    if done.returncode != 0:
        raise Wrong(f"dot can't write {name}: {done.stderr.strip()}")
    print(name)


def draw(words):
    prefix = words.prefix or (os.path.splitext(words.transcript)[0] if words.transcript else "machine")
    if not words.dot and not shutil.which("dot"):
        raise Wrong("there is no program dot: install Debian's package graphviz")
    told = parents_in(transcript.read_file(words.script)) if words.script else {}
    made = list(drawings(transcript.read(transcript.read_file(words.transcript)), told))
    if not made:
        raise Wrong("it has no answer to a `map`: put the command `map` in the script")
    for line, text in made:
        if words.dot:
            print(text, end="")
        else:
            write(prefix, line, text)


def main():
    parser = argparse.ArgumentParser(description=__doc__, formatter_class=argparse.RawDescriptionHelpFormatter)
    parser.add_argument("-o", dest="prefix", metavar="PREFIX")
    parser.add_argument("-s", dest="script", metavar="SCRIPT")
    parser.add_argument("--dot", action="store_true")
    parser.add_argument("transcript", nargs="?", metavar="TRANSCRIPT")
    words = parser.parse_args()
    transcript.do("draw.py", words.transcript, lambda: draw(words))


if __name__ == "__main__":
    main()
