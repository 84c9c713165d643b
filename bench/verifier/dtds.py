"""Document type definitions as schemas, and the operands that stand for schemas.

A text is taken to be one that `typecheck` accepts: what is refused isn't looked for.

The text of a schema is the bytes of one in compact syntax, or a `Dtd`. A content of a declaration is ("EMPTY",), ("ANY",),
("mixed", names), or a particle: ("name", name), ("sequence", particles), ("choice", particles), or a particle with a suffix,
("?", particle), ("*", particle), ("+", particle).
"""
import re
from pathlib import Path
from typing import NamedTuple

from schemas import EMPTY, CompactSchema, Schema

SKIPPED = re.compile(
    r"""\s+|<!--.*?-->|<\?.*?\?>
    |<!(?:ATTLIST|NOTATION|ENTITY)(?:"[^"]*"|'[^']*'|[^>"'])*>""",
    re.ASCII | re.DOTALL | re.VERBOSE,
)
ELEMENT = re.compile(r"<!ELEMENT\s+([^\s>]+)\s+([^>]*)>", re.ASCII)
TOKEN = re.compile(r"[(),|?*+]|[^\s(),|?*+]+", re.ASCII)


class Dtd(NamedTuple):
    """The text of a document type definition, and the name of the document's element."""

    root: str
    text: bytes


def operand(word):
    """The text of the schema that an operand names."""
    if not word.startswith("dtd:"):
        return Path(word).read_bytes()
    root, _, name = word.removeprefix("dtd:").partition(":")
    return Dtd(root, Path(name).read_bytes())


def word_and_bytes(text, name):
    """The operand for the text of a schema that stands in the file of a name, and what stands there."""
    return (f"dtd:{text.root}:{name}", text.text) if isinstance(text, Dtd) else (name, text)


def schema_of(text):
    return DtdSchema(text) if isinstance(text, Dtd) else CompactSchema(text)


def declarations(text):
    """The contents of the elements by their names, in the order of the text."""
    found, place = {}, 0
    while place < len(text):
        match = SKIPPED.match(text, place)
        if match is None:
            match = ELEMENT.match(text, place)
            if match is None:
                raise ValueError(f"no declaration at {place}: {text[place:place + 20]!r}")
            found[match.group(1)] = Contents(match.group(2)).content()
        place = match.end()
    return found


class Contents:
    """Reads the content of one declaration."""

    def __init__(self, text):
        self.tokens, self.now = TOKEN.findall(text), 0

    def takes(self, *tokens):
        """The next token, where it is one of these."""
        if self.now < len(self.tokens) and self.tokens[self.now] in tokens:
            self.now += 1
            return self.tokens[self.now - 1]
        return None

    def content(self):
        if self.tokens[0] in ("EMPTY", "ANY"):
            return (self.tokens[0],)
        if self.tokens[1] == "#PCDATA":
            return ("mixed", tuple(token for token in self.tokens[2:] if token not in ("|", ")", "*")))
        return self.particle()

    def particle(self):
        if self.takes("("):
            parts, joined = [self.particle()], None
            while not self.takes(")"):
                joined = self.takes(",", "|")
                parts.append(self.particle())
            found = ("choice" if joined == "|" else "sequence", tuple(parts))
        else:
            found = ("name", self.tokens[self.now])
            self.now += 1
        suffix = self.takes("?", "*", "+")
        return found if suffix is None else (suffix, found)


def names_in(content, declared):
    """The names of the elements that a content may hold; where it may hold anything, all that are declared."""
    kind, *parts = content
    if kind == "ANY":
        yield from declared
    elif kind == "name":
        yield parts[0]
    elif kind == "mixed":
        yield from parts[0]
    elif kind in ("sequence", "choice"):
        for part in parts[0]:
            yield from names_in(part, declared)
    elif parts:
        yield from names_in(parts[0], declared)


class DtdSchema(Schema):
    """The declared elements that are reached from the document's, in their order."""

    def __init__(self, dtd):
        declared = declarations(dtd.text.decode("utf-8-sig"))
        reached, waits = set(), [dtd.root]
        while waits:
            name = waits.pop()
            if name in declared and name not in reached:
                reached.add(name)
                waits.extend(names_in(declared[name], declared))
        kept = [name for name in declared if name in reached]
        self.numbers = {name: number for number, name in enumerate(kept, 1)}
        contents = [self.pattern(declared[name]) for name in kept]
        super().__init__(self.reference(dtd.root), [("name", "", name) for name in kept], contents)

    def reference(self, name):
        """An element by its number; one that isn't declared is allowed nowhere."""
        return ("element", self.numbers[name]) if name in self.numbers else ("notAllowed",)

    def with_texts(self, names):
        return ("choice", ("more", ("choice", ("text",), *map(self.reference, names))), EMPTY)

    def pattern(self, content):
        kind, *parts = content
        if kind == "EMPTY":
            return EMPTY
        if kind == "ANY":
            return self.with_texts(self.numbers)
        if kind == "mixed":
            return self.with_texts(parts[0]) if parts[0] else ("text",)
        if kind == "name":
            return self.reference(parts[0])
        if kind in ("sequence", "choice"):
            return ("group" if kind == "sequence" else "choice", *map(self.pattern, parts[0]))
        inner = self.pattern(parts[0])
        if kind == "?":
            return ("choice", inner, EMPTY)
        return ("more", inner) if kind == "+" else ("choice", ("more", inner), EMPTY)
