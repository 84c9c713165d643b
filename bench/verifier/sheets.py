"""Stylesheets: their rules, named templates, paths and tests.

A text is taken to be one that `typecheck` accepts: what is refused isn't looked for.

A path is a tuple of alternatives, each a tuple of `Step`s. A node test is ("name", uri, local), ("ns", uri), ("any",),
("text",) or ("node",). A test is ("true",), ("false",), ("has", path), ("not", test), ("and", tests) or ("or", tests).
A body is a tuple of instructions: ("text", characters), ("elem", (uri, local), body), ("copy", body),
("apply", path, mode), ("each", number, path, body), ("call", name), ("value", path), ("self",),
("choose", branches, otherwise), where a branch is (test, body).
"""
import re
from decimal import Decimal
from typing import NamedTuple
from xml.parsers import expat

from names import PREFIXED

XSLT = "http://www.w3.org/1999/XSL/Transform"
XML = "http://www.w3.org/XML/1998/namespace"
WHITE = " \t\r\n"
TRUE = ("true",)
TOKEN = re.compile(
    rf"""\s+
    |(?P<mark>//|::|[/|@\[\](),.])
    |(?P<name>{PREFIXED}|\*)""",
    re.VERBOSE,
)


class Step(NamedTuple):
    deep: bool
    test: tuple
    when: tuple


CHILDREN = ((Step(False, ("node",), TRUE),),)


class Rule(NamedTuple):
    """A mode by its number, the steps of one alternative or None for `/`, the priority, the body."""

    mode: int
    steps: tuple
    priority: Decimal
    body: tuple


class Element:
    """An element of a stylesheet's text, with the prefixes in scope."""

    def __init__(self, name, attributes, scope):
        self.name = name
        self.attributes = attributes
        self.scope = scope
        self.children = []

    def get(self, local):
        return self.attributes.get(("", local))

    def is_xslt(self, local):
        return self.name == (XSLT, local)


def expanded(qname, scope, default=""):
    prefix, colon, local = qname.partition(":")
    return (scope[prefix], local) if colon else (default, prefix)


class Document:
    """Reads an XML text into elements and texts, without comments, processing instructions and texts of white space alone
    outside `xsl:text`."""

    def __init__(self, text):
        self.open, self.root, self.text = [], None, []
        parser = expat.ParserCreate()
        parser.StartElementHandler = self.start
        parser.EndElementHandler = self.end
        parser.CharacterDataHandler = self.text.append
        parser.Parse(text, True)

    def start(self, qname, attributes):
        self.put_text()
        scope = dict(self.open[-1].scope) if self.open else {"xml": XML, "": ""}
        for name, value in attributes.items():
            if name == "xmlns" or name.startswith("xmlns:"):
                scope[name[6:]] = value
        named = {expanded(n, scope): v for n, v in attributes.items() if n != "xmlns" and not n.startswith("xmlns:")}
        element = Element(expanded(qname, scope, scope[""]), named, scope)
        if self.open:
            self.open[-1].children.append(element)
        else:
            self.root = element
        self.open.append(element)

    def end(self, _):
        self.put_text()
        self.open.pop()

    def put_text(self):
        text = "".join(self.text)
        self.text.clear()
        if self.open and text and (text.strip(WHITE) or self.open[-1].is_xslt("text")):
            self.open[-1].children.append(text)


class Paths:
    """Reads selects, patterns, values and tests, as they stand in an attribute of an element."""

    def __init__(self, text, scope):
        self.tokens, place = [], 0
        while place < len(text):
            match = TOKEN.match(text, place)
            if match is None:
                raise ValueError(f"no token at {place} of {text!r}")
            if match.lastgroup:
                self.tokens.append(match.group())
            place = match.end()
        self.now = 0
        self.scope = scope

    def peek(self, ahead=0):
        return self.tokens[self.now + ahead] if self.now + ahead < len(self.tokens) else ""

    def take(self, token=None):
        found = self.peek()
        if token is not None and found != token:
            raise ValueError(f"{token!r} is wanted, where {found!r} stands")
        self.now += 1
        return found

    def takes(self, token):
        if self.peek() == token:
            self.now += 1
            return True
        return False

    def alternatives(self, alternative):
        found = [alternative()]
        while self.takes("|"):
            found.append(alternative())
        return tuple(steps for steps in found if steps != "dropped")

    def select(self):
        return self.alternatives(self.select_alternative)

    def select_alternative(self):
        if self.peek() == "." and self.peek(1) == "//":
            self.take()
            self.take()
            return self.steps(True)
        return self.steps(False)

    def pattern_alternative(self):
        if self.takes("//"):
            return self.steps(True)
        if self.takes("/"):
            return self.steps(False) if self.peek() not in ("", "|") else None
        return self.steps(True)

    def steps(self, deep):
        """The steps of an alternative; "dropped" where it ends in attributes, comments or processing instructions."""
        found = []
        while True:
            step = self.step(deep)
            if step == "dropped":
                return step
            found.append(step)
            if self.takes("//"):
                deep = True
            elif self.takes("/"):
                deep = False
            else:
                return tuple(found)

    def step(self, deep):
        if self.takes("@") or (self.peek() == "attribute" and self.peek(1) == "::"):
            if self.takes("attribute"):
                self.take("::")
            self.take()
            return "dropped"
        if self.peek() == "child" and self.peek(1) == "::":
            self.take()
            self.take()
        test = self.node_test()
        if test == "dropped":
            return test
        conditions = []
        while self.takes("["):
            conditions.append(self.test())
            self.take("]")
        when = TRUE if not conditions else conditions[0] if len(conditions) == 1 else ("and", tuple(conditions))
        return Step(deep, test, when)

    def node_test(self):
        name = self.take()
        if self.peek() == "(":
            self.take("(")
            self.take(")")
            return {"text": ("text",), "node": ("node",)}.get(name, "dropped")
        if name == "*":
            return ("any",)
        if name.endswith(":*"):
            return ("ns", self.scope[name[:-2]])
        return ("name", *expanded(name, self.scope))

    def test(self):
        return self.joined("or", lambda: self.joined("and", self.primary))

    def joined(self, word, part):
        found = [part()]
        while self.takes(word):
            found.append(part())
        return found[0] if len(found) == 1 else (word, tuple(found))

    def primary(self):
        if self.takes("("):
            found = self.test()
            self.take(")")
            return found
        if self.peek() in ("not", "true", "false") and self.peek(1) == "(":
            word = self.take()
            self.take("(")
            found = ("not", self.test()) if word == "not" else (word,)
            self.take(")")
            return found
        return ("has", self.select())


def default_priority(steps, written):
    """The priority of an alternative with these tokens (XSLT 1.0, 5.5): a predicate counts whatever its test is."""
    if any(token in ("/", "//", "[") for token in written):
        return Decimal("0.5")
    return {"name": Decimal(0), "ns": Decimal("-0.25")}.get(steps[0].test[0], Decimal("-0.5"))


class Sheet:
    """The rules, the bodies of named templates in the order of the text, and the number of modes. Mode 0 is the default
    one; the others are numbered as they first appear in the text."""

    def __init__(self, text):
        self.modes, self.eaches = {None: 0}, 0
        self.rules, self.named = [], {}
        for element in Document(text).root.children:
            if element.is_xslt("template"):
                self.template(element)

    def template(self, element):
        match, name = element.get("match"), element.get("name")
        alternatives = ()
        if match is not None:
            alternatives = self.pattern(match, element.scope)
            if not alternatives and name is None:
                return
        mode = self.mode(element)
        body = self.body(element.children)
        priority = element.get("priority")
        for steps, own in alternatives:
            self.rules.append(Rule(mode, steps, own if priority is None else Decimal("".join(priority.split())), body))
        if name is not None:
            self.named[expanded(name.strip(WHITE), element.scope)] = body

    def pattern(self, text, scope):
        """The alternatives of a pattern with their default priorities."""
        reader = Paths(text, scope)
        found = []
        while True:
            begin = reader.now
            steps = reader.pattern_alternative()
            if steps != "dropped":
                found.append((steps, default_priority(steps, reader.tokens[begin : reader.now])))
            if not reader.takes("|"):
                return found

    def mode(self, element):
        mode = element.get("mode")
        if mode is not None:
            mode = expanded(mode.strip(WHITE), element.scope)
        return self.modes.setdefault(mode, len(self.modes))

    def body(self, children):
        found = []
        for child in children:
            if isinstance(child, str):
                found.append(("text", child))
            elif child.name[0] == XSLT:
                found += self.instruction(child)
            else:
                found.append(("elem", child.name, self.body(child.children)))
        return tuple(found)

    def instruction(self, element):
        """What an element of XSLT puts out, as a list of instructions; `attribute` and `copy-of` put nothing out."""
        kind = element.name[1]
        if kind == "apply-templates":
            yield "apply", self.selected(element), self.mode(element)
        elif kind == "for-each":
            path, number = self.selected(element), self.eaches
            self.eaches += 1
            yield "each", number, path, self.body(element.children)
        elif kind == "call-template":
            yield "call", expanded(element.get("name").strip(WHITE), element.scope)
        elif kind == "value-of":
            yield ("self",) if element.get("select").strip(WHITE) == "." else ("value", self.selected(element))
        elif kind == "if":
            yield "choose", (self.branch(element),), ()
        elif kind == "choose":
            branches = tuple(self.branch(child) for child in element.children if child.is_xslt("when"))
            others = [self.body(child.children) for child in element.children if child.is_xslt("otherwise")]
            yield "choose", branches, others[0] if others else ()
        elif kind == "copy":
            yield "copy", self.body(element.children)
        elif kind == "element":
            name = expanded(element.get("name").strip(WHITE), element.scope, element.scope[""])
            yield "elem", name, self.body(element.children)
        elif kind == "text":
            yield from (("text", text) for text in element.children)

    def selected(self, element):
        select = element.get("select")
        return CHILDREN if select is None else Paths(select, element.scope).select()

    def branch(self, element):
        return Paths(element.get("test"), element.scope).test(), self.body(element.children)
