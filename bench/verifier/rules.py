"""The rules that a certificate must keep for two schemas and a stylesheet."""
from text import Malformed, read

ACCEPTED = "accepted"


class Verifier:
    """A machine, with the appends, wraps and roots that were worked out."""

    def __init__(self, machine):
        self.machine = machine
        self.appends, self.wraps, self.roots = {}, {}, {}

    def answer(self, text):
        """The line that `typecheck verify` prints for a certificate's text."""
        try:
            data = read(text)
        except Malformed as fault:
            return str(fault)
        return self.broken(data) or ACCEPTED

    def broken(self, data):
        """The first rule that the data of a certificate breaks, as it is printed, or None."""
        first_tree = 4 + len(data.outputs)
        first_hedge = first_tree + len(data.trees) + 1
        machine = self.machine
        line = self.unfit(data, first_tree, first_hedge)
        if line:
            return f"rejected {line} fit"
        sets = [machine.sets.put(self.matrix(pairs)) for pairs in data.outputs]
        trees = [self.meant(row, sets) for row in data.trees]
        hedges = [self.meant(row, sets) for row in data.hedges]
        tree_set, hedge_set = set(trees), set(hedges)
        if machine.empty_row() not in hedge_set:
            return "rejected 0 empty"
        if machine.text_is_live() and machine.text_row() not in tree_set:
            return "rejected 0 text"
        return (
            self.broken_append(trees, hedges, hedge_set, first_tree, first_hedge)
            or self.broken_wrap(hedges, tree_set, first_hedge)
            or self.broken_root(trees, first_tree)
        )

    def broken_append(self, trees, hedges, listed, first_tree, first_hedge):
        for place, row in enumerate(hedges, first_hedge):
            for other, tree in enumerate(trees, first_tree):
                found = self.remembered(self.appends, self.machine.append, row, tree)
                if found is not None and found not in listed:
                    return f"rejected {place} append {other}"
        return None

    def broken_wrap(self, hedges, listed, first_hedge):
        for place, row in enumerate(hedges, first_hedge):
            for symbol, (uri, local) in enumerate(self.machine.fresh):
                found = self.remembered(self.wraps, self.machine.wrap, symbol, row)
                if found is not None and found not in listed:
                    return f"rejected {place} wrap " + (f"{{{uri}}}{local}" if uri else local)
        return None

    def broken_root(self, trees, first_tree):
        for place, tree in enumerate(trees, first_tree):
            if self.machine.admitted(tree) and not self.remembered(self.roots, self.machine.passes, tree):
                return f"rejected {place} root"
        return None

    @staticmethod
    def remembered(memory, work, *words):
        if words not in memory:
            memory[words] = work(*words)
        return memory[words]

    def unfit(self, data, first_tree, first_hedge):
        """The first line with a number out of range or a list of another length, or None."""
        machine = self.machine
        states, inputs = len(machine.output.edges), len(machine.input.edges)
        for line, pairs in enumerate(data.outputs, 3):
            if any(state >= states for pair in pairs for state in pair):
                return line
        patterns = range(1, len(machine.source.contents))
        for first, rows, numbers in ((first_tree, data.trees, patterns), (first_hedge, data.hedges, range(inputs))):
            for line, row in enumerate(rows, first):
                if not self.fits(row, numbers, len(data.outputs)):
                    return line
        return None

    def fits(self, row, numbers, sets):
        lengths = len(row[3]) == self.machine.entries and len(row[4]) == len(self.machine.numbers.looks)
        return lengths and all(each in numbers for each in row[2]) and all(each < sets for each in row[3])

    def matrix(self, pairs):
        rows = [0] * len(self.machine.output.edges)
        for start, to in pairs:
            rows[start] |= 1 << to
        return tuple(rows)

    @staticmethod
    def meant(row, sets):
        return (*row[:3], tuple(sets[each] for each in row[3]), row[4])
