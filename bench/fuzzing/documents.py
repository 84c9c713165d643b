"""Documents: read to their normal form, printed, tried by a schema, and grown at random so that they are valid.

A tree is a text or (name, children), the name being (uri, local). In normal form texts side by side are one, and there is
none of white space alone. Attributes, comments and processing instructions are dropped.
"""
from collections import Counter
from functools import lru_cache
from xml.parsers import expat

from calls import FOLDERS, within
from dtds import schema_of
from schemas import Numbered, holds, mentioned

WHITE = " \t\r\n"
ESCAPES = {"&": "&amp;", "<": "&lt;", ">": "&gt;", "\r": "&#13;"}


# How often the plain readers gave up on a text, by the names of what they raised.
GAVE_UP = Counter()


class Unread(Exception):
    """A text isn't a document, by expat."""


@lru_cache(maxsize=8)
def tree_of(text):
    """The tree of a document in normal form."""
    parser = expat.ParserCreate(namespace_separator=" ")
    children = [[]]
    names = []

    def start(name, _):
        names.append(tuple(name.split(" ")) if " " in name else ("", name))
        children.append([])

    def end(_):
        inner = normal(children.pop())
        children[-1].append((names.pop(), inner))

    parser.StartElementHandler, parser.EndElementHandler = start, end
    parser.CharacterDataHandler = lambda data: children[-1].append(data)
    try:
        parser.Parse(text, True)
    except (expat.ExpatError, ValueError) as fault:
        raise Unread(str(fault)) from None
    return next(child for child in children[0] if not isinstance(child, str))


def normal(children):
    """Children in normal form, where those within them are."""
    found = []
    for child in children:
        if isinstance(child, str) and found and isinstance(found[-1], str):
            found[-1] += child
        else:
            found.append(child)
    return tuple(child for child in found if not isinstance(child, str) or child.strip(WHITE))


def printed(tree, around=""):
    """A tree as XML, below an element whose default namespace is given."""
    if isinstance(tree, str):
        return "".join(ESCAPES.get(each, each) for each in tree)
    (uri, local), children = tree
    declared = "" if uri == around else f' xmlns="{printed(uri)}"'
    inner = "".join(printed(child, uri) for child in children)
    return f"<{local}{declared}>{inner}</{local}>" if inner else f"<{local}{declared}/>"


def result_tree(text):
    """The trees that a result spells, in normal form; line feeds around it are left out."""
    if text.startswith(b"<?xml"):
        text = text.partition(b"?>")[2]
    return tree_of(b"<result>" + text.strip(b"\n") + b"</result>")[1]


def plainly(work):
    """What the plain readers make of texts that `typecheck` accepts, or None where they don't read one, or take long."""
    try:
        return within(1, work)
    except Unread:
        return None
    except Exception as fault:
        GAVE_UP[type(fault).__name__] += 1
        return None


@lru_cache(maxsize=FOLDERS + 4)
def valid_for(text):
    """What tries and grows documents of a schema."""
    return Valid(text)


class Valid:
    """Tries and grows documents of a schema, that of a text which `typecheck` accepts."""

    def __init__(self, text):
        self.schema = schema_of(text)
        self.states = Numbered(self.schema.contents[1:])
        self.starts = frozenset(self.schema.alternatives())
        self.names = [None, *map(self.some_names, self.schema.classes[1:])]
        self.costs, self.left = self.least()

    def some_names(self, names):
        """Some names of a class, at least one where it has any."""
        found = [name for name in mentioned(names) if name[1] is not None]
        spaces = {uri for uri, _ in mentioned(names)} | {"", "urn:other"}
        found += [(uri, local) for uri in sorted(spaces) for local in ("n", "nn")]
        return [name for name in dict.fromkeys(found) if holds(names, *name)]

    def least(self):
        """The least number of nodes of a tree of each element pattern, and of what leads from each state to its end; those
        without any are missing."""
        costs, left = {}, {}
        for accepting in self.states.accepting:
            left.update((state, 0) for state in accepting)
        changed = True
        while changed:
            changed = False
            for k, first in enumerate(self.states.first, 1):
                if k not in costs and first in left and self.names[k]:
                    costs[k] = left[first] + 1
                    changed = True
            # most edges lead on, so what a state leads to is mostly known where it comes behind
            for state in reversed(range(len(self.states.edges))):
                known = (edge for edge in self.states.edges[state] if edge[1] in left and (edge[0] == "text" or edge[0] in costs))
                found = min((left[to] + self.cost(label, costs) for label, to in known), default=None)
                if found is not None and found < left.get(state, found + 1):
                    left[state] = found
                    changed = True
        return costs, left

    @staticmethod
    def cost(label, costs):
        return 1 if label == "text" else costs[label]

    def matches(self, tree):
        """The element patterns that a tree matches."""
        name, children = tree
        kinds = [None if isinstance(child, str) else self.matches(child) for child in children]
        found = set()
        for k, names in enumerate(self.schema.classes):
            if k and holds(names, *name):
                now = {self.states.first[k - 1]}
                for kind in kinds:
                    now = {to for state in now for label, to in self.states.edges[state] if (label == "text" if kind is None else label in kind)}
                if now & self.states.accepting[k - 1]:
                    found.add(k)
        return found

    def holds(self, tree):
        """Whether a document is valid."""
        return bool(self.matches(tree) & self.starts)

    def grow(self, chance, nodes):
        """A valid document of about so many nodes at most, or None where there is none."""
        starts = sorted(self.starts & self.costs.keys())
        return self.tree(chance.choice(starts), chance, [nodes], 0) if starts else None

    def tree(self, k, chance, room, depth):
        room[0] -= 1
        children, state = [], self.states.first[k - 1]
        while True:
            open_edges = [(label, to) for label, to in self.states.edges[state] if to in self.left and (label == "text" or label in self.costs)]
            ends = state in self.states.accepting[k - 1]
            if ends and (not open_edges or room[0] <= 0 or chance.random() < 0.3):
                return chance.choice(self.names[k]), normal(children)
            if room[0] <= 0 or depth > 60:
                open_edges = self.shortest(open_edges)
            label, state = chance.choice(open_edges)
            if label == "text":
                room[0] -= 1
                children.append(chance.choice(["t", "x y", "&", "1"]))
            else:
                children.append(self.tree(label, chance, room, depth + 1))

    def shortest(self, edges):
        best = min(self.cost(label, self.costs) + self.left[to] for label, to in edges)
        return [(label, to) for label, to in edges if self.cost(label, self.costs) + self.left[to] == best]
