"""Rows and their arithmetic.

A set of pairs of output states is a tuple that has, for each state, the states to which it leads as the bits of a number.
A row is (flag, bears, ascending numbers, sets, looks), the sets by their numbers in `Sets`.
"""
from dtds import schema_of
from numbering import Numbers
from schemas import Numbered, has_text, holds
from sheets import CHILDREN, WHITE, Sheet


class Sets:
    """Sets of pairs, each with a number of its own."""

    def __init__(self, states):
        self.held, self.number = [], {}
        self.identity = self.put(tuple(1 << state for state in range(states)))
        self.products = {}

    def put(self, pairs):
        if pairs not in self.number:
            self.number[pairs] = len(self.held)
            self.held.append(pairs)
        return self.number[pairs]

    def product(self, one, other):
        if one == self.identity:
            return other
        if other == self.identity:
            return one
        found = self.products.get((one, other))
        if found is None:
            right = self.held[other]
            found = self.products[one, other] = self.put(tuple(joined(row, right) for row in self.held[one]))
        return found

    def pairs(self, number):
        return tuple((i, j) for i, row in enumerate(self.held[number]) for j in range(len(self.held[number])) if row >> j & 1)


def joined(row, right):
    result, state = 0, 0
    while row:
        if row & 1:
            result |= right[state]
        row >>= 1
        state += 1
    return result


class Machine:
    """Two schemas and a stylesheet, by their texts."""

    def __init__(self, source, target, sheet):
        self.source, self.target, self.sheet = schema_of(source), schema_of(target), Sheet(sheet)
        self.numbers = Numbers(self.source, self.target, self.sheet)
        self.input = Numbered(self.source.contents[1:])
        self.output = Numbered([self.target.start, *self.target.contents[1:]])
        self.starts = frozenset(self.source.alternatives())
        self.sets = Sets(len(self.output.edges))
        self.fresh = self.numbers.symbols.fresh
        self.input_classes = [self.classes_of(self.source, name) for name in self.fresh]
        self.output_classes = [self.classes_of(self.target, name) for name in self.fresh]
        self.text_pairs = self.sets.put(self.edge_pairs(lambda label: label == "text"))
        self.ancestors = self.numbers.ancestors.found
        self.entries = len(self.ancestors) * len(self.numbers.moves)
        self.memory = {}

    @staticmethod
    def classes_of(schema, name):
        """The numbers of the element patterns whose class holds a name."""
        return frozenset(k for k, names in enumerate(schema.classes) if k and holds(names, *name))

    def edge_pairs(self, takes):
        return tuple(sum({1 << to for label, to in edges if takes(label)}) for edges in self.output.edges)

    def element_pairs(self, symbol, inner):
        """The pairs of an element of a symbol around what has the inner pairs."""
        key = "element", symbol, inner
        if key not in self.memory:
            rows = self.sets.held[inner]
            taken = {k for k in self.output_classes[symbol] if self.leads(rows, self.output.first[k], self.output.accepting[k])}
            self.memory[key] = self.sets.put(self.edge_pairs(lambda label: label in taken))
        return self.memory[key]

    @staticmethod
    def leads(rows, first, accepting):
        return any(rows[first] >> state & 1 for state in accepting)

    def empty_row(self):
        first = tuple(sorted(self.input.first))
        return (0, 0, first, (self.sets.identity,) * self.entries, (0,) * len(self.numbers.looks))

    def text_is_live(self):
        return any(has_text(content) for content in self.source.contents[1:])

    def text_row(self):
        letter = (None, self.numbers.true_predicates(None))
        node = Node(self, letter, True, None)
        return (1, 1, (), self.entries_of(node), self.looks_of(letter, 1, None))

    def append(self, row, tree):
        """The row of a list with a tree behind it, or None where it isn't live."""
        if row[0] and tree[0]:
            return None
        labels = ("text",) if tree[0] else tree[2]
        states = {to for state in row[2] for label, to in self.input.edges[state] if label in labels}
        if not states:
            return None
        sets = tuple(map(self.sets.product, row[3], tree[3]))
        looks = tuple(one or other for one, other in zip(row[4], tree[4]))
        return (tree[0], row[1] | tree[1], tuple(sorted(states)), sets, looks)

    def wrap(self, symbol, row):
        """The row of an element around a list, or None where it isn't live."""
        held = set(row[2])
        patterns = tuple(k for k in sorted(self.input_classes[symbol]) if held & self.input.accepting[k - 1])
        if not patterns:
            return None
        letter = (symbol, self.numbers.true_predicates(row[4]))
        return (0, row[1], patterns, self.entries_of(Node(self, letter, row[1], row)), self.looks_of(letter, row[1], row))

    def entries_of(self, node):
        moves = self.numbers.moves
        found = []
        for state in self.ancestors:
            below = node.below(state)
            for move in range(len(moves)):
                entry = node.job(moves.key(move)[1], state) if moves.hits(move, node.letter) else self.sets.identity
                after = None if node.is_text() else moves.after(move, node.letter)
                if after is not None:
                    entry = self.sets.product(entry, node.row[3][below * len(moves) + after])
                found.append(entry)
        return tuple(found)

    def looks_of(self, letter, bears, row):
        looks = self.numbers.looks
        found = []
        for look in range(len(looks)):
            after = None if letter[0] is None else looks.after(look, letter)
            if looks.hits(look, letter):
                found.append(2 if bears else 1)
            else:
                found.append(0 if after is None else row[4][after])
        return tuple(found)

    def admitted(self, tree):
        return not self.starts.isdisjoint(tree[2])

    def passes(self, tree):
        root = Node(self, ("root", frozenset()), tree[1], tree)
        body = self.numbers.root_rule()
        pairs = root.children(("mode", 0), None) if body is None else root.body(body, None)
        return self.leads(self.sets.held[pairs], self.output.first[0], self.output.accepting[0])


class Node:
    """A node of a letter, the root among them, over the row of what stands below it: what bodies put out on it."""

    def __init__(self, machine, letter, bears, row):
        self.machine = machine
        self.letter = letter
        self.bears = bears
        self.row = row
        self.jobs = {}

    def is_text(self):
        return self.letter[0] is None

    def looks(self):
        return None if self.row is None else self.row[4]

    def below(self, state):
        """The ancestor state of what stands below this node, which stands below one."""
        ancestors = self.machine.numbers.ancestors
        if self.is_text():
            return None
        return 0 if self.letter[0] == "root" else ancestors.number[ancestors.edges[state, self.letter]]

    def job(self, job, state):
        """The pairs of what is done on this node, below an ancestor state."""
        kind, number = job
        key = job, state
        if key not in self.jobs:
            numbers = self.machine.numbers
            body = numbers.bodies[number] if kind == "each" else numbers.rule_for(number, state, self.letter)
            if body is not None:
                self.jobs[key] = self.body(body, state)
            else:
                self.jobs[key] = self.machine.text_pairs if self.is_text() else self.children(job, state)
        return self.jobs[key]

    def children(self, job, state):
        return self.selected(CHILDREN, job, state)

    def selected(self, path, job, state):
        moves = self.machine.numbers.moves
        first = moves.first[path, job]
        if self.is_text() or first is None:
            return self.machine.sets.identity
        return self.row[3][self.below(state) * len(moves) + first]

    def body(self, body, state):
        sets, found = self.machine.sets, self.machine.sets.identity
        for instruction in body:
            found = sets.product(found, self.instruction(instruction, state))
        return found

    def text(self, bears):
        return self.machine.text_pairs if bears else self.machine.sets.identity

    def instruction(self, instruction, state):
        machine, (kind, *parts) = self.machine, instruction
        if kind == "text":
            return self.text(parts[0].strip(WHITE))
        if kind == "elem":
            return machine.element_pairs(machine.numbers.symbols.number[parts[0]], self.body(parts[1], state))
        if kind == "copy":
            return self.copy(parts[0], state)
        if kind == "apply":
            return self.selected(parts[0], ("mode", parts[1]), state)
        if kind == "each":
            return self.selected(parts[1], ("each", parts[0]), state)
        if kind == "call":
            return self.body(machine.sheet.named[parts[0]], state)
        if kind == "value":
            return self.text(self.row is not None and machine.numbers.looks.value(parts[0], self.row[4]) == 2)
        if kind == "self":
            return self.text(self.bears)
        for test, body in parts[0]:
            if machine.numbers.true(test, self.looks()):
                return self.body(body, state)
        return self.body(parts[1], state)

    def copy(self, body, state):
        if self.is_text():
            return self.machine.text_pairs
        inner = self.body(body, state)
        return inner if self.letter[0] == "root" else self.machine.element_pairs(self.letter[0], inner)
