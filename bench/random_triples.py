#!/usr/bin/env python3
"""Compares `typecheck prove` with the plain verifier's closure on small triples of two schemas and a stylesheet.

random_triples.py PROGRAM [COUNT [FIRST]]   some fixed triples, and those of so many seeds (300) from the first (1) on

Each seed gives a random triple, and each third one gives another, in which declarations of elements take the place of one
schema or of both.

Where the plain closure finds the triple safe, `prove` prints its least certificate, byte by byte; else its status is that of
an unsafe one. So numbers of states, symbols, predicates, moves and looks are compared, and the meaning of bodies. Triples with
many rows are passed over.
"""
import random
import subprocess
import sys
import tempfile
from pathlib import Path

sys.path.insert(0, str(Path(__file__).resolve().parent / "verifier"))

from closure import TooMany, Unsafe, proved  # noqa: E402
from dtds import Dtd, word_and_bytes  # noqa: E402
from rows import Machine  # noqa: E402
from text import write  # noqa: E402

MOST = 120
CLASSES = ["a", "b", "c", "a | b", "* - a", "*", "p:e", "p:*", "p:* - p:e", "(a | p:e)", "* - (a | p:*)"]
TESTS = ["a", "not(b)", "a or text()", "a and not(b/c)", "true()", "(a)"]
SELECTS = ["a", "*", "node()", "text()", "a/b", ".//a", "a//b", "a|b", "child::b", "p:*", "p:e", "@k", "a|@k", "*/*", ".//text()"]
PATTERNS = ["a", "b", "*", "text()", "node()", "/", "/a", "//b", "a/b", "a//b", "a|b", "p:*", "p:e", "a|@k", "comment()|b", "*/*/a"]
VALUES = ["a", ".", "*", ".//text()", "a|b", "b/c"]
MODES = ["", ' mode="m"', ' mode="k"']
UNSEEN = '<xsl:value-of select="d[e]"/><xsl:apply-templates select="d/e" mode="j"/>'
HEAD = '<xsl:stylesheet version="1.0" xmlns:xsl="http://www.w3.org/1999/XSL/Transform" xmlns:p="u">'


def sheet(*rules, select="a/b"):
    """A stylesheet with rules (pattern, body), and one for `/` that applies them."""
    every = [("/", f'<r><xsl:apply-templates select="{select}"/></r>'), *rules]
    templates = "".join(f'<xsl:template match="{match}">{body}</xsl:template>' for match, body in every)
    return f"{HEAD}{templates}</xsl:stylesheet>".encode()


SOURCE, TARGET = b"element a { element b { empty }* }", b"element r { element x { empty }* }"
DECLARED = Dtd("a", b"<!ELEMENT a (b*)><!ELEMENT b EMPTY>")
MIXED = Dtd(
    "a",
    b"""<!-- % --><!ELEMENT a (#PCDATA|b|z)*><!ATTLIST a k CDATA ">">
    <!ELEMENT c EMPTY><!ELEMENT b ANY><!ELEMENT d (c)>""",
)
ALTERNATIVES = Dtd("r", b"<?xml encoding='UTF-8'?><!ELEMENT x EMPTY><!ELEMENT r ((x, (x | y?)+)?, z*)>")
ANYTHING = Dtd("r", b"<!ELEMENT s (r)><!ELEMENT r ANY><!ELEMENT x (x*)>")
REPEATED = b"element a { element b { element b { empty }* }* }"
JOINED = [
    "(b and b) and b",
    "b and b and b",
    "(b and b and b)",
    "b][b][b",
    "b][b and b",
    "b and (b) and b",
    "(b or b) or b",
    "(b and b) or b",
    "b and b or b",
    "not((b and b))",
]


def joined(test):
    """A stylesheet with two selects, whose predicates are the same or not."""
    return sheet(("b", "<x/>"), ("c", f'<xsl:apply-templates select="a/b[{test}]"/>'), select="a/b[b and b and b]")


FIXED = [
    # a predicate that says nothing, and what the priority of its pattern is
    (SOURCE, TARGET, sheet(("b[true()]", "<x/>"), ("b", "<y/>"))),
    (SOURCE, TARGET, sheet(("*[true()]", "<x/>"), ("b", "<y/>"))),
    (SOURCE, TARGET, sheet(("b[(true())]", "<x/>"), ("a/b[true()][true()]", "<x/>"), ("child::b", "<y/>"))),
    # the members of what `and` and `or` join
    *((REPEATED, TARGET, joined(test)) for test in JOINED),
    (REPEATED, TARGET, sheet(("b[(b and b) or c]", "<x/>"), ("b", "<x/><x/>"), ("b[b and b or c]", "<x/>"))),
    # ancestor states that are empty, and a path without alternatives
    (SOURCE, TARGET, sheet(("/a", "<x/>"), ("b", "<x/>"))),
    (SOURCE, TARGET, sheet(("/a", "<y/>"), select="@k")),
    # declarations of elements
    (DECLARED, TARGET, sheet(("b", "<x/>"))),
    (DECLARED._replace(root="b"), TARGET, sheet(("b", "<x/>"))),
    (DECLARED._replace(root="z"), TARGET, sheet(("b", "<x/>"))),
    (Dtd("a", b"<!ELEMENT a (b*, z)><!ELEMENT b EMPTY>"), TARGET, sheet(("b", "<x/>"))),
    (Dtd("a", b"<!ELEMENT a (b+)><!ELEMENT b (#PCDATA|b|b)*>"), TARGET, sheet(("b", "<x/>"))),
    (SOURCE, ALTERNATIVES, sheet(("b", "<x/><x/><x/>"))),
    (MIXED, Dtd("r", b"<!ELEMENT r (#PCDATA)*>"), sheet(("b", "t"), select=".//b")),
    (MIXED._replace(root="b"), ANYTHING, sheet(("node()", "<x/>"), select="node()|b/*")),
]


class Maker:
    """Makes the texts of one triple."""

    def __init__(self, seed):
        self.chance = random.Random(seed)
        self.predicates = self.chance.sample(TESTS, 2)

    def one(self, *choices):
        return self.chance.choice(choices)

    def content(self, references, depth):
        kind = self.chance.randrange(12 if depth else 5)
        if kind < 2:
            return self.one(*references)
        if kind == 2:
            return self.one("text", "empty", "empty", "attribute k { text }")
        if kind == 3:
            return self.one(*references) + self.one("*", "?", "+")
        if kind == 4:
            return self.one("text", "notAllowed", "empty") if self.chance.random() < 0.3 else self.one(*references)
        if kind == 11:
            return f"mixed {{ {self.content(references, depth - 1)} }}"
        parts = [self.content(references, depth - 1) for _ in range(self.chance.randrange(2, 4))]
        return f"({self.one(' , ', ' | ', ' & ').join(parts)}){self.one('', '', '*', '?')}"

    def schema(self, letter, wide):
        """Some element patterns; a wide schema has a root that holds anything."""
        references = [f"{letter}{number}" for number in range(1, self.chance.randrange(2, 5))]
        starts = self.chance.sample(references, self.chance.randrange(1, len(references) + 1))
        text = f'namespace p = "u"\nstart = {"root" if wide else " | ".join(starts)}\n'
        if wide:
            text += f"root = element * {{ (text | root | {' | '.join(references)})* }}\n"
        for reference in references:
            text += f"{reference} = element {self.one(*CLASSES)} {{ {self.content(references, 2)} }}\n"
        return text

    def path(self, paths):
        path = self.one(*paths)
        if self.chance.random() < 0.25 and "@" not in path and "(" not in path and path not in (".", "/"):
            path += f"[{self.one(*self.predicates)}]"
        return path

    def test(self):
        return self.one(*TESTS, self.path(["a", "b", "*", "a/b", ".//b"]), "false()")

    def body(self, depth, calls):
        return "".join(self.instruction(depth, calls) for _ in range(self.chance.randrange(0, 4)))

    def instruction(self, depth, calls):
        kind = self.chance.randrange(12 if depth else 6)
        if kind < 2:
            select = f' select="{self.path(SELECTS)}"' if self.chance.random() < 0.6 else ""
            return f"<xsl:apply-templates{select}{self.one(*MODES)}/>"
        if kind == 2:
            return self.one("x", "<xsl:text> </xsl:text>", "x<!-- -->y", "<y/>")
        if kind == 3:
            return f'<xsl:value-of select="{self.path(VALUES)}"/>'
        if kind == 4:
            return f'<xsl:call-template name="{self.one(*calls)}"/>' if calls else "<a/>"
        if kind == 5:
            attribute = f'<xsl:attribute name="k">v{UNSEEN}</xsl:attribute>'
            return self.one("<a/>", attribute, '<xsl:copy-of select="@*"/>', "<b k=\"v\"/>")
        inner = self.body(depth - 1, calls)
        if kind == 6:
            return self.one(f"<a>{inner}</a>", f'<xsl:element name="p:e">{inner}</xsl:element>', f"<p:f>{inner}</p:f>")
        if kind == 7:
            return f"<xsl:copy>{inner}</xsl:copy>"
        if kind == 8:
            return f'<xsl:for-each select="{self.path(SELECTS)}">{inner}</xsl:for-each>'
        if kind == 9:
            return f'<xsl:if test="{self.test()}">{inner}</xsl:if>'
        others = f"<xsl:otherwise>{self.body(depth - 1, calls)}</xsl:otherwise>" if self.chance.random() < 0.6 else ""
        return f'<xsl:choose><xsl:when test="{self.test()}">{inner}</xsl:when>{others}</xsl:choose>'

    def sheet(self):
        names = ["t1", "t2"][: self.chance.randrange(3)]
        templates = [f'<xsl:template name="{name}">{self.body(1, names[:place])}</xsl:template>' for place, name in enumerate(names)]
        for _ in range(self.chance.randrange(1, 5)):
            priority = self.one("", "", "", ' priority="1"', ' priority="-.5"')
            match = f' match="{self.path(PATTERNS)}"{priority}{self.one(*MODES, "", "")}'
            templates.append(f"<xsl:template{match}>{self.body(2, names)}</xsl:template>")
        if self.chance.random() < 0.7:
            templates.append(f'<xsl:template match="/"><r>{self.body(2, names)}</r></xsl:template>')
        self.chance.shuffle(templates)
        return f"{HEAD}{''.join(templates)}</xsl:stylesheet>"

    def triple(self):
        return tuple(text.encode() for text in (self.schema("e", False), self.schema("o", self.chance.random() < 0.7), self.sheet()))


class DtdMaker:
    """Makes declarations of elements."""

    def __init__(self, seed):
        self.chance = random.Random(f"declarations {seed}")

    def one(self, *choices):
        return self.chance.choice(choices)

    def particle(self, names, depth):
        suffix = self.one("", "", "", "?", "*", "+")
        if not depth or self.chance.random() < 0.3:
            return self.one(*names) + suffix
        parts = [self.particle(names, depth - 1) for _ in range(self.chance.randrange(1, 4))]
        return f"({self.one(' , ', ' | ').join(parts)}){suffix}"

    def content(self, names):
        kind = self.chance.randrange(6)
        if kind == 0:
            return self.one("EMPTY", "EMPTY", "ANY")
        if kind == 1:
            return self.one("(#PCDATA)", "( #PCDATA )*")
        if kind == 2:
            return f"(#PCDATA | {' | '.join(self.one(*names) for _ in range(self.chance.randrange(1, 4)))})*"
        return f"({self.particle(names, 2)}){self.one('', '', '*', '?', '+')}"

    def dtd(self, names, root, wide):
        """Declarations of these names, of which one may be left out; a wide root holds anything."""
        kept = [name for name in names if name == root or self.chance.random() < 0.85]
        self.chance.shuffle(kept)
        contents = ["ANY" if wide and name == root else self.content(names) for name in kept]
        between = self.one("", "\n", "<!-- % -->", '<!ATTLIST a k CDATA ">">')
        return Dtd(root, between.join(f"<!ELEMENT {name} {content}>" for name, content in zip(kept, contents)).encode())

    def instead(self, source, target, sheet):
        """The triple with declarations in place of one schema, or of both."""
        kind = self.chance.randrange(3)
        if kind != 1:
            source = self.dtd(["a", "b", "c", "e"], self.one("a", "b"), self.chance.random() < 0.3)
        if kind != 0:
            target = self.dtd(["r", "a", "b", "y"], "r", self.chance.random() < 0.7)
        return source, target, sheet


def triples(count, first):
    """All triples that are compared, each with what it is called."""
    yield from ((f"fixed triple {place}", texts) for place, texts in enumerate(FIXED, 1))
    for seed in range(first, first + count):
        texts = Maker(seed).triple()
        yield f"seed {seed}", texts
        if seed % 3 == 0:
            yield f"seed {seed}, with declarations of elements", DtdMaker(seed).instead(*texts)


def expected(texts):
    """The status and the certificate, or None where there are many rows."""
    try:
        return 0, write(proved(Machine(*texts), MOST), 2)
    except Unsafe:
        return 1, None
    except TooMany:
        return None


def main():
    program = str(Path(sys.argv[1]).resolve())
    count, first = (int(word) for word in (sys.argv[2:] + ["300", "1"][len(sys.argv) - 2 :])[:2])
    sys.setrecursionlimit(20000)
    work = Path(tempfile.mkdtemp())
    told = {0: 0, 1: 0, None: 0}
    for name, texts in triples(count, first):
        wanted = expected(texts)
        told[wanted and wanted[0]] += 1
        if wanted is None:
            continue
        words = []
        for text, file in zip(texts, "IOS"):
            word, written = word_and_bytes(text, file)
            (work / file).write_bytes(written)
            words.append(word)
        done = subprocess.run([program, "prove", *words], cwd=work, stdout=subprocess.PIPE, check=False)
        if done.returncode != wanted[0] or (wanted[1] is not None and done.stdout != wanted[1]):
            sys.exit(f"{work}, {name}: {done.returncode} {done.stdout[:400]}, and by the plain closure {wanted}")
    print(f"{told[0]} safe, {told[1]} not safe, {told[None]} passed over")


if __name__ == "__main__":
    main()
