#!/usr/bin/env python3
"""Counts how long the contracts of functions are. Run it at the top.

contracts.py        a line for each crate, and one for all: how many functions have clauses; of them those with a line of
                    more than 100 columns (wide), and the widest; those with more than 4 clauses (many), and the most; how
                    many clauses there are, and how many of them stand word for word five times or more in their crate
contracts.py CRATE  the widest lines of a crate, its longest contracts, and the clauses that stand five times or more
"""
import re
import sys
from collections import Counter
from dataclasses import dataclass
from pathlib import Path

CRATES = Path("crates")
COLUMNS, CLAUSES, TIMES = 100, 4, 5
FUNCTION = re.compile(r"( *)(?:pub(?:\(\w+\))? )?(?:const |unsafe |ghost )*fn (\w+)")
CLAUSE = re.compile(r"(requires|ensures)\b")
WORDS = ("crate", "functions", "wide", "%", "widest", "many", "%", "most", "clauses", "again")
WIDTHS = (18, 10, 7, 5, 8, 7, 5, 6, 9, 7)


@dataclass
class Function:
    """A function with its clauses, each a list of lines."""

    name: str
    place: str
    clauses: list

    @property
    def widest(self):
        return max(len(line) for clause in self.clauses for line in clause)


def functions(text, file=""):
    """The functions of a file that have clauses. These are indented more than their function, and end where a line
    isn't: at the brace of its body, or in a trait at what stands behind the function."""
    found, left = [], None
    for number, line in enumerate(text.split("\n"), 1):
        word, head = line.lstrip(), FUNCTION.match(line)
        if head:
            left = len(head[1])
            found.append(Function(head[2], f"{file}:{number}", []))
        elif not word or left is None or word.startswith("//"):
            continue
        elif len(line) - len(word) <= left:
            left = left if word.startswith((")", "where")) else None
        elif CLAUSE.match(word):
            found[-1].clauses.append([line])
        elif found[-1].clauses:
            found[-1].clauses[-1].append(line)
    return [function for function in found if function.clauses]


def of_crate(crate):
    files = sorted(Path(CRATES, crate, "src").rglob("*.rt"))
    return [function for file in files for function in functions(file.read_text(), file.relative_to(CRATES))]


def repeated(found):
    """The clauses that stand five times or more, each with how often."""
    times = Counter(" ".join(" ".join(clause).split()) for function in found for clause in function.clauses)
    return [(clause, number) for clause, number in times.most_common() if number >= TIMES]


def row(name, found):
    """The line of a crate; its clauses are counted as often as they stand."""
    wide = [function.widest for function in found if function.widest > COLUMNS]
    lengths = [len(function.clauses) for function in found]
    many = [length for length in lengths if length > CLAUSES]
    share = max(len(found), 1) / 100
    again = sum(number for _, number in repeated(found))
    widest = max((function.widest for function in found), default=0)
    shares = [round(len(part) / share) for part in (wide, many)]
    return [name, len(found), len(wide), shares[0], widest, len(many), shares[1], max(lengths, default=0), sum(lengths), again]


def rows():
    """The lines of all crates and, where clauses are compared within their crate alone, that of all together."""
    crates = {name: of_crate(name) for name in sorted(folder.parent.name for folder in CRATES.glob("*/src"))}
    lines = [row(name, found) for name, found in crates.items() if found]
    everything = row("all", [function for found in crates.values() for function in found])
    return [*lines, [*everything[:-1], sum(line[-1] for line in lines)]]


def details(crate):
    found = of_crate(crate)
    wide = sorted((one for one in found if one.widest > COLUMNS), key=lambda one: -one.widest)
    many = sorted((one for one in found if len(one.clauses) > CLAUSES), key=lambda one: -len(one.clauses))
    yield from (f"{one.widest} columns: {one.place} {one.name}" for one in wide)
    yield from (f"{len(one.clauses)} clauses: {one.place} {one.name}" for one in many)
    yield from (f"{number} times: {clause}" for clause, number in repeated(found))


def main(words):
    if words:
        print(*details(words[0]), sep="\n")
        return
    for cells in [WORDS, *rows()]:
        print(f"{cells[0]:<{WIDTHS[0]}}" + "".join(f"{cell:>{width}}" for cell, width in zip(cells[1:], WIDTHS[1:])))


if __name__ == "__main__":
    main(sys.argv[1:])
