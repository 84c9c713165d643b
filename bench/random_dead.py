#!/usr/bin/env python3
"""Compares `typecheck dead` with a plain reading of small stylesheets, on all small documents of small schemas.

random_dead.py PROGRAM [COUNT [FIRST]]   some fixed pairs, and those of so many seeds (300) from the first (1) on

The pairs are the schemas and stylesheets of random_triples.py, each third also with declarations of elements. A document that
is shown has to be valid and to instantiate its spot; no document of few nodes may instantiate a dead spot, nor one with fewer
nodes than the one that is shown a used spot. Pairs that pass a limit are passed over.
"""
import re
import subprocess
import sys
import tempfile
from collections import Counter
from pathlib import Path

HERE = Path(__file__).resolve().parent
sys.path[:0] = [str(HERE / "verifier"), str(HERE / "fuzzing")]

from documents import Valid, tree_of  # noqa: E402
from dtds import word_and_bytes  # noqa: E402
from numbering import Symbols  # noqa: E402
from random_triples import triples  # noqa: E402
from schemas import CompactSchema, holds  # noqa: E402
from sheets import Sheet  # noqa: E402

NODES, TREES = 6, 4000
NOTHING = CompactSchema(b"start = notAllowed")
LINE = re.compile(rb"(rule|named|branch) ([0-9]+) (dead|used (.*))")


class Node:
    """A node of a document: the root, an element with its name, or a text, whose name is None."""

    def __init__(self, tree, root=False):
        self.root, self.name, self.children = root, None, []
        if root:
            self.children = [Node(tree)]
        elif not isinstance(tree, str):
            self.name = tree[0]
            self.children = [Node(child) for child in tree[1]]

    def below(self, deep):
        """The children, or all descendants."""
        for child in self.children:
            yield child
            if deep:
                yield from child.below(True)


def passes(test, node):
    """Whether a node passes a node test."""
    if test[0] == "node":
        return True
    if node.name is None or test[0] == "text":
        return node.name is None and test[0] == "text"
    return test[0] == "any" or node.name[: len(test) - 1] == test[1:]


def steps_from(node, steps):
    """The nodes to which the steps lead."""
    found = [node]
    for step in steps:
        found = [each for one in found for each in one.below(step.deep) if passes(step.test, each) and true(step.when, each)]
    return list(dict.fromkeys(found))


def selected(path, node):
    return list(dict.fromkeys(each for steps in path for each in steps_from(node, steps)))


def true(test, node):
    kind = test[0]
    if kind in ("true", "false"):
        return kind == "true"
    if kind == "has":
        return bool(selected(test[1], node))
    if kind == "not":
        return not true(test[1], node)
    return (all if kind == "and" else any)(true(part, node) for part in test[1])


def branches_of(body):
    """How many branches stand in a body, at any depth."""
    return sum(branches_in(each) for each in body)


def branches_in(instruction):
    kind = instruction[0]
    if kind == "choose":
        _, branches, otherwise = instruction
        return sum(1 + branches_of(body) for _, body in branches) + bool(otherwise) + branches_of(otherwise)
    return branches_of(instruction[-1]) if kind in ("elem", "copy", "each") else 0


class Spots:
    """The spots of a stylesheet, and those that a document instantiates."""

    def __init__(self, sheet):
        self.sheet = sheet
        self.first, number = {}, 1
        bodies = [("rule", place, rule.body) for place, rule in enumerate(sheet.rules)]
        bodies += [("named", place, body) for place, body in enumerate(sheet.named.values())]
        for kind, place, body in bodies:
            self.first[kind, place] = number
            number += branches_of(body)
        self.all = [(kind, place + 1) for kind, place, _ in bodies] + [("branch", each) for each in range(1, number)]
        self.places = {name: place for place, name in enumerate(sheet.named)}

    def instantiated(self, tree):
        root = Node(tree, root=True)
        fitting = [None if rule.steps is None else set(steps_from(root, rule.steps)) for rule in self.sheet.rules]
        return Walk(self, fitting).of(root)


class Walk:
    """What a stylesheet instantiates on a document: the nodes that each rule fits, and what was seen."""

    def __init__(self, spots, fitting):
        self.spots, self.fitting = spots, fitting
        self.found, self.seen = set(), set()

    def of(self, root):
        self.apply(root, 0)
        return self.found

    def rule_of(self, node, mode):
        best = None
        for place, (rule, nodes) in enumerate(zip(self.spots.sheet.rules, self.fitting)):
            fits = node.root if nodes is None else node in nodes
            if rule.mode == mode and fits and (best is None or rule.priority >= self.spots.sheet.rules[best].priority):
                best = place
        return best

    def apply(self, node, mode):
        if (node, mode) in self.seen:
            return
        self.seen.add((node, mode))
        place = self.rule_of(node, mode)
        if place is None:
            for child in node.children:
                self.apply(child, mode)
        else:
            self.found.add(("rule", place + 1))
            self.body(self.spots.sheet.rules[place].body, self.spots.first["rule", place], node)

    def body(self, body, number, node):
        for instruction in body:
            self.instruction(instruction, number, node)
            number += branches_in(instruction)

    def instruction(self, instruction, number, node):
        kind = instruction[0]
        if kind == "elem" or (kind == "copy" and (node.root or node.name)):
            self.body(instruction[-1], number, node)
        elif kind == "apply":
            for each in selected(instruction[1], node):
                self.apply(each, instruction[2])
        elif kind == "each":
            for each in selected(instruction[2], node):
                self.body(instruction[3], number, each)
        elif kind == "call":
            place = self.spots.places[instruction[1]]
            self.found.add(("named", place + 1))
            if (place, node) not in self.seen:
                self.seen.add((place, node))
                self.body(self.spots.sheet.named[instruction[1]], self.spots.first["named", place], node)
        elif kind == "choose":
            self.choose(instruction, number, node)

    def choose(self, instruction, number, node):
        _, branches, otherwise = instruction
        for test, body in branches:
            if true(test, node):
                self.take(body, number, node)
                return
            number += 1 + branches_of(body)
        if otherwise:
            self.take(otherwise, number, node)

    def take(self, body, number, node):
        self.found.add(("branch", number))
        self.body(body, number + 1, node)


class Small:
    """The documents of a schema by their number of nodes, over some names, up to the number of nodes at which there are many."""

    def __init__(self, schema, names):
        self.schema, self.names = schema, names
        self.by_nodes = {0: []}
        count = 0
        for nodes in range(1, NODES + 1):
            found = list(self.trees(nodes))
            count += len(found)
            if count > TREES:
                break
            self.by_nodes[nodes] = found
        self.nodes = max(self.by_nodes)

    def trees(self, nodes):
        """The trees of so many nodes that match some element pattern, each with those that it matches; a text matches None."""
        states = self.schema.states
        if nodes == 1:
            yield "t", None
        first = [frozenset([state]) for state in states.first]
        for children, reached in self.lists(nodes - 1, first, False):
            accepted = [k for k, now in enumerate(reached, 1) if now & states.accepting[k - 1]]
            for name in self.names if accepted else ():
                kinds = frozenset(k for k in accepted if holds(self.schema.schema.classes[k], *name))
                if kinds:
                    yield (name, children), kinds

    def lists(self, nodes, reached, after_text):
        """The lists of trees of so many nodes, with the states to which each leads in each content."""
        if nodes == 0:
            yield (), reached
            return
        for size in range(1, nodes + 1):
            for tree, kinds in self.by_nodes.get(size, ()):
                if kinds is None and after_text:
                    continue
                led = [self.after(now, kinds) for now in reached]
                if any(led):
                    for rest, ends in self.lists(nodes - size, led, kinds is None):
                        yield (tree, *rest), ends

    def after(self, now, kinds):
        edges = self.schema.states.edges
        return frozenset(to for state in now for label, to in edges[state] if (label == "text" if kinds is None else label in kinds))

    def documents(self):
        for nodes in range(1, self.nodes + 1):
            for tree, kinds in self.by_nodes[nodes]:
                if kinds and kinds & self.schema.starts:
                    yield nodes, tree


def node_count(tree):
    return 1 if isinstance(tree, str) else 1 + sum(map(node_count, tree[1]))


def wrong(valid, sheet, answer, told):
    """What is wrong with an answer, or None."""
    spots = Spots(sheet)
    small = Small(valid, Symbols(valid.schema, NOTHING, sheet).fresh)
    least = {}
    for nodes, tree in small.documents():
        for spot in spots.instantiated(tree):
            least.setdefault(spot, nodes)
    lines = answer.splitlines()
    dead = 0
    if len(lines) != len(spots.all) + 1:
        return "another number of lines"
    for spot, line in zip(spots.all, lines):
        match = LINE.fullmatch(line)
        if match is None or (match.group(1).decode(), int(match.group(2))) != spot:
            return f"{line!r} in place of {spot}"
        fewest = least.get(spot)
        if match.group(3) == b"dead":
            dead += 1
            told["dead, of which some had small documents to try"] += bool(least)
            if fewest is not None:
                return f"{spot} is used by a document of {fewest} nodes"
        elif match.group(4) != b"document-too-large":
            shown = tree_of(match.group(4))
            nodes = node_count(shown)
            told["used, by the least of all documents" if nodes <= small.nodes else "used"] += 1
            if not valid.holds(shown) or spot not in spots.instantiated(shown):
                return f"{shown} doesn't show {spot}"
            if (fewest is not None and fewest < nodes) or (nodes <= small.nodes and fewest != nodes):
                return f"{spot} is used by a document of {fewest} nodes, not {nodes}"
    if lines[-1].decode() != f"places {len(spots.all)} dead {dead}":
        return "another last line"
    return None


def main():
    program = str(Path(sys.argv[1]).resolve())
    count, first = (int(word) for word in (sys.argv[2:] + ["300", "1"][len(sys.argv) - 2 :])[:2])
    work = Path(tempfile.mkdtemp())
    told = Counter()
    for name, (source, _, sheet) in triples(count, first):
        word, written = word_and_bytes(source, "I")
        (work / "I").write_bytes(written)
        (work / "S").write_bytes(sheet)
        done = subprocess.run([program, "dead", word, "S"], cwd=work, stdout=subprocess.PIPE, check=False)
        if done.returncode > 1:
            told["pairs passed over"] += 1
            if done.returncode == 4:
                continue
            sys.exit(f"{work}, {name}: {done.returncode} {done.stdout[:400]}")
        fault = wrong(Valid(source), Sheet(sheet), done.stdout, told)
        if fault or done.returncode != (b"\nplaces" in b"\n" + done.stdout and not done.stdout.endswith(b" dead 0\n")):
            sys.exit(f"{work}, {name}: {fault or 'status'} {done.stdout[:400]}")
    print(", ".join(f"{number} {what}" for what, number in sorted(told.items())))


if __name__ == "__main__":
    main()
