"""The text of a certificate, in both versions: read, with the first line that isn't as it must be, and written.

The data of a certificate is a `Certificate`: its sets of pairs, its rows of trees and its rows of lists of trees, each in
the order of the lines. A row is a tuple (flag, bears, ascending numbers, entries, looks).
"""
import re
from typing import NamedTuple

HEADINGS = {1: b"xslt-typecheck certificate 1", 2: b"xslt-typecheck certificate 2"}
MOST = {"outputs": 65536, "trees": 4000, "hedges": 4000}
GREATEST = 4294967295
NUMBER = re.compile(rb"0|[1-9][0-9]{0,9}")


class Certificate(NamedTuple):
    outputs: list
    trees: list
    hedges: list


class Malformed(Exception):
    """A line that isn't as it must be, by its number from 1."""

    def __init__(self, line):
        super().__init__(f"rejected {line} form")
        self.line = line


class BadLine(Exception):
    pass


def number(word):
    if not NUMBER.fullmatch(word) or int(word) > GREATEST:
        raise BadLine
    return int(word)


def numbers(word):
    return () if word == b"-" else tuple(map(number, word.split(b",")))


def ascending(items):
    if any(one >= other for one, other in zip(items, items[1:])):
        raise BadLine
    return items


def flag(word):
    if word not in (b"0", b"1"):
        raise BadLine
    return int(word)


def looks(word):
    found = numbers(word)
    if any(look > 2 for look in found):
        raise BadLine
    return found


def pair(word):
    parts = word.split(b">")
    if len(parts) != 2:
        raise BadLine
    return number(parts[0]), number(parts[1])


def pairs_of(line):
    """The pairs of a line `m`."""
    first, *words = line.split(b" ")
    if first != b"m":
        raise BadLine
    return ascending(tuple(map(pair, words)))


def changed(word, before):
    """The list whose differences from the list before are given."""
    if word == b"-":
        return before
    changes = []
    for part in word.split(b","):
        both = part.split(b":")
        if len(both) != 2:
            raise BadLine
        changes.append((number(both[0]), number(both[1])))
    ascending([place for place, _ in changes])
    found = list(before)
    for place, value in changes:
        if place >= len(found) or found[place] == value:
            raise BadLine
        found[place] = value
    return tuple(found)


def row_of(line, letter, version, before):
    """The row of a line `t`, `T`, `h` or `H`; `before` is the row before it, if there is one."""
    words = line.split(b" ")
    if len(words) != 6:
        raise BadLine
    front = flag(words[1]), flag(words[2]), ascending(numbers(words[3]))
    if words[0] == letter:
        row = (*front, numbers(words[4]), looks(words[5]))
        if version == 2 and before is not None and lengths(row) == lengths(before):
            raise BadLine
        return row
    if words[0] != letter.upper() or version != 2 or before is None:
        raise BadLine
    row = (*front, changed(words[4], before[3]), changed(words[5], before[4]))
    if any(look > 2 for look in row[4]):
        raise BadLine
    return row


def lengths(row):
    return len(row[3]), len(row[4])


class Lines:
    """The lines of a text from the front; a line that lacks its line feed is wrong."""

    def __init__(self, text):
        self.parts = text.split(b"\n")
        self.now = 0

    def take(self):
        self.now += 1
        if self.now >= len(self.parts):
            raise BadLine
        return self.parts[self.now - 1]

    def at_end(self):
        return self.now == len(self.parts) - 1 and self.parts[-1] == b""


def counted(lines, word):
    """So many lines follow."""
    words = lines.take().split(b" ")
    if len(words) != 2 or words[0] != word.encode():
        raise BadLine
    count = number(words[1])
    if count > MOST[word]:
        raise BadLine
    return count


def section(lines, word, read, written):
    """The data of a counted kind of lines, which ascend as version 1 writes them."""
    found, last = [], None
    for _ in range(counted(lines, word)):
        item = read(lines.take(), found[-1] if found else None)
        line = written(item)
        if last is not None and line <= last:
            raise BadLine
        found.append(item)
        last = line
    return found


def read(text):
    """The data of a certificate's text; or `Malformed`."""
    lines = Lines(text)
    try:
        heading = lines.take()
        version = next((each for each, words in HEADINGS.items() if words == heading), None)
        if version is None:
            raise BadLine
        found = Certificate(
            section(lines, "outputs", lambda line, _: pairs_of(line), pairs_line),
            section(lines, "trees", lambda line, before: row_of(line, b"t", version, before), tree_line),
            section(lines, "hedges", lambda line, before: row_of(line, b"h", version, before), hedge_line),
        )
        if lines.take() != b"end":
            raise BadLine
        if not lines.at_end():
            lines.now += 1
            raise BadLine
    except BadLine:
        raise Malformed(lines.now) from None
    return found


def listed(items):
    return ",".join(map(str, items)) or "-"


def pairs_line(pairs):
    return "".join(["m", *(f" {i}>{j}" for i, j in pairs)]).encode()


def row_line(letter, row):
    return f"{letter} {row[0]} {row[1]} {listed(row[2])} {listed(row[3])} {listed(row[4])}".encode()


def tree_line(row):
    return row_line("t", row)


def hedge_line(row):
    return row_line("h", row)


def differences(row, before):
    return listed(f"{place}:{value}" for place, (value, old) in enumerate(zip(row, before)) if value != old)


def row_lines(letter, rows, version):
    before = None
    for row in rows:
        if version == 1 or before is None or lengths(row) != lengths(before):
            yield row_line(letter, row)
        else:
            changes = f"{differences(row[3], before[3])} {differences(row[4], before[4])}"
            yield f"{letter.upper()} {row[0]} {row[1]} {listed(row[2])} {changes}".encode()
        before = row


def write(data, version):
    """The text of a certificate's data."""
    lines = [HEADINGS[version], b"outputs %d" % len(data.outputs), *map(pairs_line, data.outputs)]
    lines += [b"trees %d" % len(data.trees), *row_lines("t", data.trees, version)]
    lines += [b"hedges %d" % len(data.hedges), *row_lines("h", data.hedges, version), b"end"]
    return b"".join(line + b"\n" for line in lines)
