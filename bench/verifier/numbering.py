"""The numbers that a certificate speaks of: symbols, predicates, path states, moves and looks of two schemas and a
stylesheet.

A letter is (symbol, predicates), where the symbol of a text is None and the predicates are a frozenset of numbers.
"""
from itertools import count

from schemas import holds, mentioned
from sheets import CHILDREN, TRUE


def parts(instruction):
    """What stands in an instruction, in order: ("path", path, job) with the job None for a value, ("test", test), and
    ("body", body)."""
    kind = instruction[0]
    if kind == "elem":
        yield "body", instruction[2]
    elif kind == "copy":
        yield "body", instruction[1]
    elif kind == "apply":
        yield "path", instruction[1], ("mode", instruction[2])
    elif kind == "each":
        yield "path", instruction[2], ("each", instruction[1])
        yield "body", instruction[3]
    elif kind == "value":
        yield "path", instruction[1], None
    elif kind == "choose":
        for test, body in instruction[1]:
            yield "test", test
            yield "body", body
        yield "body", instruction[2]


def walked(body):
    """The instructions of a body, each before those inside it, with the tests as they stand: (instruction, parts)."""
    for instruction in body:
        yield "instruction", instruction
        for part in parts(instruction):
            if part[0] == "body":
                yield from walked(part[1])
            else:
                yield part


def paths_of(test):
    """The paths of a test, without those in their predicates."""
    if test[0] == "has":
        yield test[1]
    elif test[0] == "not":
        yield from paths_of(test[1])
    elif test[0] in ("and", "or"):
        for part in test[1]:
            yield from paths_of(part)


def steps_of(path):
    """The steps of a path, each before those in its predicates."""
    for alternative in path:
        for step in alternative:
            yield step
            for inner in paths_of(step.when):
                yield from steps_of(inner)


def once(items):
    return list(dict.fromkeys(items))


def bodies_of(sheet):
    """The bodies in the order of the stylesheet."""
    return [rule.body for rule in sheet.rules] + list(sheet.named.values())


def all_steps(sheet):
    """The steps of a stylesheet, rule by rule, in each the pattern's and then the body's, and then named templates."""
    for rule in sheet.rules:
        if rule.steps is not None:
            yield from steps_of((rule.steps,))
        yield from body_steps(rule.body)
    for body in sheet.named.values():
        yield from body_steps(body)


def body_steps(body):
    for part in walked(body):
        if part[0] == "path":
            yield from steps_of(part[1])
        elif part[0] == "test":
            for path in paths_of(part[1]):
                yield from steps_of(path)


class Symbols:
    """The symbols by their fresh names."""

    def __init__(self, source, target, sheet):
        found = [each for schema in (source, target) for names in schema.classes[1:] for each in mentioned(names)]
        for step in all_steps(sheet):
            if step.test[0] == "name":
                found.append(step.test[1:])
            elif step.test[0] == "ns":
                found.append((step.test[1], None))
        for body in bodies_of(sheet):
            found += [part[1][1] for part in walked(body) if part[0] == "instruction" and part[1][0] == "elem"]
        names = sorted({each for each in found if each[1] is not None}, key=encoded)
        spaces = sorted({uri for uri, _ in found}, key=str.encode)
        others = [(uri, self.first_free("", {local for space, local in names if space == uri})) for uri in spaces]
        self.fresh = names + others + [(self.first_free("urn:", set(spaces)), "n")]
        self.number = {name: number for number, name in enumerate(names)}

    @staticmethod
    def first_free(front, taken):
        return next(front + "n" * length for length in count(1) if front + "n" * length not in taken)


def encoded(name):
    return name[0].encode(), name[1].encode()


class States:
    """The path states of alternatives that are reached from the first one, in order."""

    def __init__(self, alternatives, letters, fits):
        self.alternatives = alternatives
        self.letters = letters
        self.fits = fits
        self.found = [frozenset((place, 0) for place in range(len(alternatives)))]
        self.number = {self.found[0]: 0}
        self.edges = {}
        for state in self.found:
            for letter in letters:
                after = self.after(state, letter)
                if after not in self.number:
                    self.number[after] = len(self.found)
                    self.found.append(after)
                self.edges[state, letter] = after

    def after(self, state, letter):
        result = set()
        for place, taken in state:
            steps = self.alternatives[place]
            if steps[taken].deep:
                result.add((place, taken))
            if taken + 1 < len(steps) and self.fits(steps[taken], letter):
                result.add((place, taken + 1))
        return frozenset(result)

    def hit_by(self, state, letter):
        """The alternatives that select a node of a letter below a state."""
        for place, steps in enumerate(self.alternatives):
            if (place, len(steps) - 1) in state and self.fits(steps[-1], letter):
                yield place


class Numbers:
    """All that numbers stand for. A move is (path, job), a job ("mode", number) or ("each", number)."""

    def __init__(self, source, target, sheet):
        self.sheet = sheet
        self.symbols = Symbols(source, target, sheet)
        self.predicates = once(step.when for step in all_steps(sheet) if step.when != TRUE)
        sets = [frozenset(i for i in range(len(self.predicates)) if mark >> i & 1) for mark in range(2 ** len(self.predicates))]
        letters = [(symbol, marks) for symbol in range(len(self.symbols.fresh)) for marks in sets]
        self.rules = [rule for rule in sheet.rules if rule.steps is not None]
        self.ancestors = States([rule.steps for rule in self.rules], letters, self.fits)
        self.bodies = {}
        moves = [(CHILDREN, ("mode", mode)) for mode in range(len(sheet.modes))]
        looks = []
        for body in bodies_of(sheet):
            for part in walked(body):
                if part[0] == "path":
                    (looks if part[2] is None else moves).append(part[1] if part[2] is None else part[1:])
                elif part[0] == "test":
                    looks += paths_of(part[1])
                elif part[1][0] == "each":
                    self.bodies[part[1][1]] = part[1][3]
        for test in self.predicates:
            looks += paths_of(test)
        self.moves = Selects([(move, move[0]) for move in once(moves)], letters, self.fits)
        self.looks = Selects([(path, path) for path in once(looks)], letters, self.fits)

    def fits(self, step, letter):
        symbol, marks = letter
        if step.when != TRUE and self.predicates.index(step.when) not in marks:
            return False
        kind = step.test[0]
        if symbol is None:
            return kind in ("text", "node")
        uri, local = self.symbols.fresh[symbol]
        if kind == "name":
            return step.test[1:] == (uri, local)
        return kind in ("any", "node") or (kind == "ns" and step.test[1] == uri)

    def true_predicates(self, looks):
        """The predicates that hold where the looks of what stands below are given, or None for a text."""
        return frozenset(i for i, test in enumerate(self.predicates) if self.true(test, looks))

    def true(self, test, looks):
        kind = test[0]
        if kind == "has":
            return looks is not None and self.looks.value(test[1], looks) != 0
        if kind == "not":
            return not self.true(test[1], looks)
        if kind in ("and", "or"):
            return (all if kind == "and" else any)(self.true(part, looks) for part in test[1])
        return kind == "true"

    def rule_for(self, mode, state, letter):
        """The body of the rule for a node of a letter below an ancestor state, or None for the built-in one."""
        hit = [place for place in self.ancestors.hit_by(state, letter) if self.rules[place].mode == mode]
        best = max(hit, key=lambda place: (self.rules[place].priority, place), default=None)
        return None if best is None else self.rules[best].body

    def root_rule(self):
        """The body of the rule for the root in the default mode, or None for the built-in one."""
        rules = [rule for rule in enumerate(self.sheet.rules) if rule[1].steps is None and rule[1].mode == 0]
        best = max(rules, key=lambda rule: (rule[1].priority, rule[0]), default=None)
        return None if best is None else best[1].body


class Selects:
    """The states of several paths that aren't empty, path by path, numbered through. Each path has a key."""

    def __init__(self, paths, letters, fits):
        self.all, self.first = [], {}
        for key, path in paths:
            graph = States(path, letters, fits)
            kept = [state for state in graph.found if state]
            begin = len(self.all)
            place = {state: begin + number for number, state in enumerate(kept)}
            self.first[key] = place.get(graph.found[0])
            self.all += [(key, graph, state, place) for state in kept]

    def __len__(self):
        return len(self.all)

    def key(self, number):
        return self.all[number][0]

    def after(self, number, letter):
        """The state to which one steps, or None where that is empty."""
        _, graph, state, place = self.all[number]
        return place.get(graph.edges[state, letter])

    def hits(self, number, letter):
        _, graph, state, _ = self.all[number]
        return any(True for _ in graph.hit_by(state, letter))

    def value(self, path, values):
        first = self.first[path]
        return 0 if first is None else values[first]
