"""Schemas, in RELAX NG's compact syntax too: their element patterns, and the states of their contents.

A text is taken to be one that `typecheck` accepts: what is refused isn't looked for.

A name class is ("name", uri, local), ("ns", uri, except), ("any", except), where an except is a name class or None, or
("choice", classes). A pattern is ("empty",), ("notAllowed",), ("text",), ("element", place), ("reference", name),
("more", pattern), or a kind of list, ("group", ..), ("choice", ..), ("interleave", ..), with its patterns.
"""
import re
from typing import NamedTuple

from names import PREFIXED

TOKEN = re.compile(
    rf"""\s+|\#[^\n\r]*
    |(?P<literal>"[^"\n]*"|'[^'\n]*')
    |(?P<name>\\?{PREFIXED})
    |(?P<mark>\|=|&=|[={{}}()|&,?*+\-])""",
    re.VERBOSE,
)
KINDS = {",": "group", "|": "choice", "&": "interleave"}
DEFINES = ("=", "|=", "&=")
XML = "http://www.w3.org/XML/1998/namespace"
EMPTY = ("empty",)


class Token(NamedTuple):
    kind: str
    text: str
    place: int


def tokens(text):
    """The tokens of a schema, with their places in bytes."""
    found, place = [], 0
    while place < len(text):
        match = TOKEN.match(text, place)
        if match is None:
            raise ValueError(f"no token at {place}: {text[place:place + 20]!r}")
        if match.lastgroup:
            found.append(Token(match.lastgroup, match.group(), place))
        place = match.end()
    found.append(Token("end", "", place))
    return found


class Reader:
    """Reads a schema from its tokens into definitions and element patterns by the place of their word."""

    def __init__(self, text):
        self.tokens = tokens(text)
        self.now = 0
        self.prefixes = {"xml": XML}
        self.default = ""
        self.definitions = {}
        self.elements = {}

    def peek(self, ahead=0):
        return self.tokens[min(self.now + ahead, len(self.tokens) - 1)]

    def take(self, text=None):
        token = self.peek()
        if text is not None and token.text != text:
            raise ValueError(f"{text!r} is wanted at {token.place}, where {token.text!r} stands")
        if text is None and token.kind == "end":
            raise ValueError("the schema ends early")
        self.now += 1
        return token

    def takes(self, text):
        if self.peek().kind != "literal" and self.peek().text == text:
            self.now += 1
            return True
        return False

    def file(self):
        self.declarations()
        if self.peek().text == "grammar" and self.peek(1).text == "{":
            self.take()
            self.take()
            self.several("}")
        elif self.peek().kind == "end" or self.at_definition():
            self.several("")
        else:
            self.define("start", "=", self.pattern())

    def declarations(self):
        while True:
            word = self.peek().text
            if word == "namespace" and self.peek(2).text == "=":
                self.take()
                prefix = self.prefix()
                self.prefixes[prefix] = self.literal()
            elif word == "default" and self.peek(1).text == "namespace":
                self.take()
                self.take()
                prefix = None if self.peek().text == "=" else self.prefix()
                self.default = self.literal()
                if prefix is not None:
                    self.prefixes[prefix] = self.default
            elif word == "datatypes" and self.peek(2).text == "=":
                self.take()
                self.prefix()
                self.literal()
            else:
                return

    def prefix(self):
        return self.take().text.removeprefix("\\")

    def literal(self):
        self.take("=")
        return self.take().text[1:-1]

    def at_definition(self):
        if self.peek().text == "div" and self.peek(1).text == "{":
            return True
        return self.peek().kind == "name" and self.peek(1).text in DEFINES

    def several(self, ends):
        while self.peek().text != ends:
            if self.takes("div"):
                self.take("{")
                self.several("}")
                continue
            name = self.prefix()
            join = self.take().text
            self.define(name, join, self.pattern())
        self.take(ends)

    def define(self, name, join, pattern):
        self.definitions.setdefault(name, []).append((join, pattern))

    def pattern(self):
        first = self.item()
        mark = self.peek().text
        if self.peek().kind != "mark" or mark not in KINDS:
            return first
        items = [first]
        while self.takes(mark):
            items.append(self.item())
        return (KINDS[mark], *items)

    def item(self):
        found = self.primary()
        if self.takes("?"):
            return ("choice", found, EMPTY)
        if self.takes("+"):
            return ("more", found)
        if self.takes("*"):
            return ("choice", ("more", found), EMPTY)
        return found

    def braced(self):
        self.take("{")
        found = self.pattern()
        self.take("}")
        return found

    def primary(self):
        token = self.take()
        if token.text == "(":
            found = self.pattern()
            self.take(")")
            return found
        if token.text == "element":
            names = self.names()
            self.elements[token.place] = (names, self.braced())
            return ("element", token.place)
        if token.text == "attribute":
            return self.attribute()
        if token.text == "mixed":
            return ("interleave", ("text",), self.braced())
        if token.text in ("empty", "text", "notAllowed"):
            return (token.text,)
        return ("reference", token.text.removeprefix("\\"))

    def attribute(self):
        """An attribute counts as empty, whatever its braces hold."""
        while self.peek().text != "{":
            self.take()
        depth = 0
        while True:
            token = self.take()
            if token.kind == "mark":
                depth += (token.text == "{") - (token.text == "}")
            if depth == 0:
                return EMPTY

    def names(self):
        first = self.simple_names()
        if self.peek().text != "|":
            return first
        found = [first]
        while self.takes("|"):
            found.append(self.simple_names())
        return ("choice", *found)

    def simple_names(self):
        token = self.take()
        if token.text == "(":
            found = self.names()
            self.take(")")
            return found
        if token.text == "*":
            return ("any", self.excepted())
        if token.text.endswith(":*"):
            return ("ns", self.prefixes[token.text[:-2]], self.excepted())
        prefix, colon, local = token.text.partition(":")
        if colon:
            return ("name", self.prefixes[prefix], local)
        return ("name", self.default, prefix.removeprefix("\\"))

    def excepted(self):
        return self.simple_names() if self.takes("-") else None


class Schema:
    """The start of a schema and its element patterns, which have the numbers from 1: their name classes and contents."""

    def __init__(self, start, classes, contents):
        self.start, self.classes, self.contents = start, [None, *classes], [None, *contents]

    def alternatives(self, pattern=None):
        """The numbers of the element patterns that are alternatives of the start."""
        pattern = self.start if pattern is None else pattern
        if pattern[0] == "element":
            yield pattern[1]
        elif pattern[0] == "choice":
            for part in pattern[1:]:
                yield from self.alternatives(part)


class CompactSchema(Schema):
    """A schema in compact syntax."""

    def __init__(self, text):
        self.reader = reader = Reader(text.decode("utf-8-sig"))
        reader.file()
        places, waits = set(), list(self.elements_in(("reference", "start")))
        while waits:
            place = waits.pop()
            if place not in places:
                places.add(place)
                waits.extend(self.elements_in(reader.elements[place][1]))
        elements = [reader.elements[place] for place in sorted(places)]
        self.numbers = {place: number for number, place in enumerate(sorted(places), 1)}
        contents = [self.numbered(content) for _, content in elements]
        super().__init__(self.numbered(("reference", "start")), [names for names, _ in elements], contents)

    def definition(self, name):
        """The patterns of a name joined by their operator."""
        joined = self.reader.definitions[name]
        patterns = [pattern for _, pattern in joined]
        if len(patterns) == 1:
            return patterns[0]
        join = next(join for join, _ in joined if join != "=")
        return ("choice" if join == "|=" else "interleave", *patterns)

    def elements_in(self, pattern):
        """The places of the elements that a pattern reaches without going into one."""
        if pattern[0] == "element":
            yield pattern[1]
        elif pattern[0] == "reference":
            yield from self.elements_in(self.definition(pattern[1]))
        elif pattern[0] in ("group", "choice", "interleave", "more"):
            for part in pattern[1:]:
                yield from self.elements_in(part)

    def numbered(self, pattern):
        """A pattern with references replaced, and each element by its number."""
        if pattern[0] == "reference":
            return self.numbered(self.definition(pattern[1]))
        if pattern[0] == "element":
            return ("element", self.numbers[pattern[1]])
        return (pattern[0], *map(self.numbered, pattern[1:]))


def holds(names, uri, local):
    """Whether a name is in a name class."""
    if names is None:
        return False
    if names[0] == "name":
        return names[1:] == (uri, local)
    if names[0] == "ns":
        return names[1] == uri and not holds(names[2], uri, local)
    if names[0] == "any":
        return not holds(names[1], uri, local)
    return any(holds(part, uri, local) for part in names[1:])


def mentioned(names):
    """The names and the namespaces that a name class mentions, each name as (uri, local), each namespace as (uri, None)."""
    if names is None:
        return
    if names[0] == "name":
        yield names[1:]
    elif names[0] == "ns":
        yield names[1], None
        yield from mentioned(names[2])
    elif names[0] == "any":
        yield from mentioned(names[1])
    else:
        for part in names[1:]:
            yield from mentioned(part)


def has_text(pattern):
    return pattern[0] == "text" or any(has_text(part) for part in pattern[1:] if isinstance(part, tuple))


class States(NamedTuple):
    """The states of a pattern: their number, the edges (from, label, to), and those that accept. A label is the number of
    an element pattern, or "text"."""

    count: int
    edges: frozenset
    accepting: frozenset


def states(pattern):
    kind, *parts = pattern
    if kind == "empty":
        return States(1, frozenset(), frozenset([0]))
    if kind == "notAllowed":
        return States(1, frozenset(), frozenset())
    if kind == "text":
        return States(2, frozenset([(0, "text", 1), (1, "text", 1)]), frozenset([0, 1]))
    if kind == "element":
        return States(2, frozenset([(0, parts[0], 1)]), frozenset([1]))
    if kind == "more":
        return repeated(states(parts[0]))
    join = {"group": grouped, "choice": chosen, "interleave": interleaved}[kind]
    found = states(parts[0])
    for part in parts[1:]:
        found = join(found, states(part))
    return found


def repeated(one):
    again = {(state, label, to) for state in one.accepting for start, label, to in one.edges if start == 0}
    return States(one.count, one.edges | again, one.accepting)


def moved(one, other):
    """The number that each state of the second pattern but its first has in a group or choice."""
    return lambda state: one.count - 1 + state


def grouped(one, other):
    place = moved(one, other)
    edges = set(one.edges)
    for start, label, to in other.edges:
        if start == 0:
            edges |= {(state, label, place(to)) for state in one.accepting}
        else:
            edges.add((place(start), label, place(to)))
    accepting = {place(state) for state in other.accepting if state != 0}
    if 0 in other.accepting:
        accepting |= one.accepting
    return States(one.count + other.count - 1, frozenset(edges), frozenset(accepting))


def chosen(one, other):
    place = moved(one, other)
    both = lambda state: 0 if state == 0 else place(state)
    edges = one.edges | {(both(start), label, both(to)) for start, label, to in other.edges}
    return States(one.count + other.count - 1, edges, one.accepting | frozenset(map(both, other.accepting)))


def interleaved(one, other):
    width = other.count
    edges = {(x * width + y, label, to * width + y) for x, label, to in one.edges for y in range(width)}
    edges |= {(x * width + y, label, x * width + to) for y, label, to in other.edges for x in range(one.count)}
    accepting = {x * width + y for x in one.accepting for y in other.accepting}
    return States(one.count * width, frozenset(edges), frozenset(accepting))


class Numbered:
    """The states of several contents numbered through from 0: the first state of each, the edges that go out of each state,
    and the states of each that accept."""

    def __init__(self, patterns):
        self.first, self.accepting, self.edges = [], [], []
        for pattern in patterns:
            found, begin = states(pattern), len(self.edges)
            self.first.append(begin)
            self.accepting.append(frozenset(begin + state for state in found.accepting))
            self.edges += [[] for _ in range(found.count)]
            for start, label, to in found.edges:
                self.edges[begin + start].append((label, begin + to))
