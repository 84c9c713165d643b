#!/usr/bin/env python3
"""Tells on which definitions a clause of the theorem rests. Run it at the top.

trust.py CLAUSE        prints them in their reading order, each with its file, its line and its number of lines
trust.py CLAUSE text   prints what they say, too
trust.py sums          prints a line for each call, which tells of each of its clauses on how many lines in how many modules it rests
trust.py               writes the table of lines in docs/TRUST.md and the sum in README.md

docs/definitions.py reads the definitions.
"""
import re
import sys
from pathlib import Path

from definitions import Definition, Outside, Scope, cited_by_clause, file_of, module_of, reach

CODE = (
    "crates/tc_decide/src/checking.rt",
    "crates/tc_decide/src/certifying.rt",
    "crates/tc_decide/src/verifying.rt",
    "crates/tc_decide/src/upgrading.rt",
    "crates/tc_decide/src/running.rt",
    "crates/tc_decide/src/comparing.rt",
    "crates/tc_decide/src/spots.rt",
    "crates/tc_decide/src/validating.rt",
    "crates/tc_decide/src/pieces.rt",
    "crates/tc_top/src/lib.rt",
    "crates/tc_top/src/program.rt",
    "crates/tc_top/src/laws.rt",
)
PAGE, README = Path("docs/TRUST.md"), Path("README.md")
FUNCTION = re.compile(r"^pub fn (\w+).*?\n\{", re.M | re.S)
CLAUSE = re.compile(r"    ensures (\w*) ?\{(.*?)\}\n", re.S)
MODEL = "Safety Validity Matching Grammars Trees Names Sheets Chains Paths Outcomes Meaning"
FIRST = ["tc_decide.specs.Deciding", *(f"tc_model.specs.{name}" for name in MODEL.split())]


class Reached:
    """All on which a clause rests."""

    def __init__(self, words):
        found = reach(words)
        outside = [one for one in found if isinstance(one, Outside)]
        self.definitions = [one for one in found if isinstance(one, Definition)]
        self.constants = sorted(map(constant, (one for one in outside if one.module.endswith(".TheConstants"))))
        self.types = sorted({type_of(one) for one in outside if ".declared." in one.module} - {None})
        self.library = sorted({one.name for one in outside if ".declared." not in one.module})

    def modules(self):
        """The modules in the order in which they are met."""
        return list(dict.fromkeys(one.module for one in self.definitions))

    def within(self, module):
        return sorted((one for one in self.definitions if one.module == module), key=lambda one: one.place)

    def count(self):
        """How many definitions there are; a constant is one."""
        return sum(one.kind != "module" for one in self.definitions) + len(self.constants)

    def lines(self):
        """How many lines they have, and the parameters of their modules; a constant has one."""
        return line_count(self.definitions) + len(self.constants)


def constant(outside):
    """The file, the line and the name of a constant of the code."""
    crate, _, rest = outside.module.partition(".specs.declared.")
    file = Path("crates", crate, "src", rest.removesuffix(".TheConstants").replace(".", "/") + ".rt")
    lines = enumerate(file.read_text().split("\n"), 1)
    return file, next(number for number, line in lines if line.startswith(f"pub const {outside.name}:")), outside.name


def type_of(outside):
    """The type of the code that a name means, or whose variant it is."""
    name = outside.module.removesuffix(".TheVariants").replace(".specs.declared.", ".")
    return None if name.endswith(".TheConstants") else name


def line_count(definitions):
    return sum(len(one.lines) for one in definitions)


def clauses():
    """Each clause of the theorem, with all on which it rests."""
    found = {}
    for text in (Path(file).read_text() for file in CODE):
        for function in FUNCTION.finditer(text):
            for clause, body in CLAUSE.findall(function[0]):
                name = ".".join(filter(None, (function[1], clause))).removeprefix("typecheck.")
                found[name] = Reached(cited_by_clause(body, Scope(text)))
    return found


def in_order(modules):
    """Modules after those on which they stand, and else as they are given."""
    order = []

    def visit(module):
        below = {at for at, _ in module_of(module).uses.values()} - {module}
        for at in modules:
            if at in below and at not in order:
                visit(at)
        if module not in order:
            order.append(module)

    for module in modules:
        visit(module)
    return order


def reading_order(found):
    """The one reading order of all modules, in three parts."""
    texts = [module for module in found["check.safe"].modules() if module not in FIRST]
    whole = dict.fromkeys(module for reached in found.values() for module in reached.modules())
    others = [module for module in whole if module not in [*FIRST, *texts]]
    return {
        "Read these first": FIRST,
        "What texts and words mean": in_order(texts),
        "What clauses other than `check.safe` add": in_order(others),
    }


def subject(module):
    """The first sentence of a module."""
    comment = re.match(r"(?:-- .*\n)*", module_of(module).text)[0]
    whole = " ".join(line[3:] for line in comment.splitlines())
    return re.split(r"(?<=[\w)\]`])\. (?=[A-Z])|: `", whole)[0].rstrip(".")


def written(definition):
    """A definition as it is written, with the comment before it."""
    lines = module_of(definition.module).text.split("\n")
    first, last = definition.place, definition.lines[-1][0]
    while first > 1 and lines[first - 2].strip().startswith("--"):
        first -= 1
    return "\n".join(lines[first - 1:last])


def print_module(module, definitions, with_texts):
    print(f"\n{subject(module)} ({line_count(definitions)})")
    for one in definitions:
        print(f"{file_of(module)}:{one.place}: {one.title}, {len(one.lines)}")
        if with_texts:
            print(f"\n{written(one)}\n")


def print_clause(clause, reached, order, with_texts):
    print(f"{clause}: {reached.count()} definitions, {reached.lines()} lines")
    for part, modules in order.items():
        here = [module for module in modules if module in reached.modules()]
        if here:
            print(f"\n# {part}")
        for module in here:
            print_module(module, reached.within(module), with_texts)
    print("\n# Taken from the code and from the standard library\n")
    for file, line, name in reached.constants:
        print(f"{file}:{line}: {name}, 1")
    print("types of the code:", *reached.types)
    print("words of the library:", *reached.library)


def first_table(safe):
    """The modules to read first, each with its lines on which a clause rests; the numbers stand to the right."""
    rows = [
        f"[`{module.replace('.specs.', '.')}`](../{file_of(module)}) | {subject(module)} | {line_count(safe.within(module))}\n"
        for module in FIRST
    ]
    return "".join(["module | what it says | lines\n", "---|---|---:\n", *rows])


def sums(found):
    """A line a call, with its clauses; a law without names of clauses is a call of its own."""
    rows = {}
    for name, one in found.items():
        call, _, clause = name.rpartition(".")
        if not call:
            call, clause = (name, "") if name.startswith("law_of_") else ("typecheck", name)
        rows.setdefault(call, []).append(f"{clause} {one.lines()}/{len(one.modules())}".strip())
    return [f"{call}: {', '.join(cells)}" for call, cells in rows.items()]


def page(text, found):
    """The page with its table as it is now: it stands behind a comment."""
    return re.sub(r"(<!-- first -->\n\n)(?:.* \| .*\n|---.*\n)*", lambda match: match[1] + first_table(found["check.safe"]), text)


def readme(text, found):
    """README with its sum as it is now: the lines and the modules behind clause `safe` of `check`."""
    safe = found["check.safe"]
    return re.sub(r"\d+ lines in \d+ modules", f"{safe.lines()} lines in {len(safe.modules())} modules", text)


def main():
    found = clauses()
    match sys.argv[1:]:
        case []:
            PAGE.write_text(page(PAGE.read_text(), found))
            README.write_text(readme(README.read_text(), found))
        case ["sums"]:
            print(*sums(found), sep="\n")
        case [clause, *rest] if clause in found and rest in ([], ["text"]):
            print_clause(clause, found[clause], reading_order(found), rest == ["text"])
        case _:
            sys.exit("docs/trust.py [sums | CLAUSE [text]], where CLAUSE is one of " + ", ".join(found))


if __name__ == "__main__":
    main()
