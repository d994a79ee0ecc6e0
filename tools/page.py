"""The rows of docs/MESSAGES.md, for the tools beside this file."""
import os
import re
import textwrap
from dataclasses import dataclass

import transcript

PAGE = os.path.join(transcript.TOP, "docs", "MESSAGES.md")
WIDTH = 110


@dataclass
class Row:
    """A row of the page: its heading, the columns' names, its cells, and what the row above has where one says 'the same'."""
    heading: str
    names: list
    cells: list
    above: list

    def lines(self):
        """The lines of the program that the row is about."""
        return [code.strip() for cell in self.cells[:2] for code in re.findall(r"`+([^`]+)`+", cell)]

    def text(self):
        """What is written of it."""
        yield f"    MESSAGES, {self.heading}"
        for name, cell, above in zip(self.names, self.cells, self.above):
            if cell:
                told = cell if above == cell else f"{cell} [as above it: {above}]"
                yield from textwrap.wrap(f"{name}: {told}", WIDTH, initial_indent="      ", subsequent_indent="        ",
                                         break_long_words=False, break_on_hyphens=False)


def read():
    """All rows of the page's tables."""
    rows, heading, names = [], "", None
    with open(PAGE, encoding="utf-8") as page:
        lines = page.read().split("\n")
    for line in lines:
        if line.startswith("#"):
            heading = line.lstrip("# ")
        if not line.startswith("|"):
            names = None
            continue
        cells = [cell.strip().replace("\\|", "|") for cell in re.split(r"(?<!\\)\|", line)[1:-1]]
        if names is None:
            names = cells
            above = [""] * len(cells)
        elif set(line) - set("|- "):
            above = [old if cell.startswith("the same") else cell for cell, old in zip(cells, above)]
            rows.append(Row(heading, names, cells, above))
    return rows


def of_rule(rule, rows):
    """The rows for a rule of the object format."""
    first = [row for row in rows if row.names[0] == "Rule" and str(rule) in re.findall(r"\d+", row.cells[0])]
    return first + [row for row in rows if any(re.search(rf"rule {rule} at ", line) for line in row.lines())]
