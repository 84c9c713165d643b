"""Reads definitions in `specs/`: which names each defines, on which lines, and which definitions its words mean."""
import re
from dataclasses import dataclass, field
from functools import cache
from pathlib import Path

CRATES = Path("crates")
USE = re.compile(r"^(?:ghost |pub )?use Rattle\.([\w.]+?)(?: as (\w+)|\.\{(.*)\});?$", re.M)
COMMENT = re.compile(r'("(?:[^"\\]|\\.)*")|(?<!\S)--.*')
TOKEN = re.compile(
    r"""(?P<quoted>"(?:[^"\\]|\\.)*")
    |(?P<part>(?<=[)}\]])(?:\.\w+)+)
    |(?P<word>[^\s(){}.;,"]+(?:\.[^\s(){}.;,"]+)*|[(){};,.])""",
    re.VERBOSE,
)
BLOCK = re.compile(r"\s*(?:abbrev )?mutual$")
PARAMETERS = re.compile(r"\s*module _ ")
HEAD = re.compile(r"\s*((?:(?:unfoldable|abbrev|pub|data|record) )*)(\S+)")
CLOSING = {"(": ")", "{": "}", "[": "]"}
MARKS = ("unfoldable", "abbrev", "pub", "data", "record")
BUILT_IN = {*"→ × = | : λ elim as record Type Unit tt absurd _ where ◌ ⊥ ¬ ∥ ∥₁".split()}


@dataclass(eq=False)
class Definition:
    """A function with its clauses, a record or a type, or the parameters that all definitions of a `module _` have."""

    module: str
    title: str
    kind: str = ""
    lines: list = field(default_factory=list)  # of code: the number of each, and its text without comments
    inside: tuple = ()  # the parameters of the modules in which it stands

    @property
    def place(self):
        return self.lines[0][0]


@dataclass(frozen=True)
class Outside:
    """A name of the standard library, or of the code: of a constant, of a type or of one of its variants."""

    module: str
    name: str


def file_of(module):
    crate, _, name = module.partition(".specs.")
    return Path(CRATES, crate, "specs", name.replace(".", "/") + ".antt")


def uses(text):
    """What each word of a file means by its `use` lines: a module, or a module and a name of it. A part of an operator
    means the operator."""
    names = {}
    for module, alias, listed in USE.findall(text):
        for item in listed.split(", ") if listed else []:
            name, _, own = item.strip().partition(" as ")
            for part in filter(None, [own or name, *(own or name).split("◌")]):
                names[part] = (module, name)
        if alias:
            names[alias] = (module, None)
    return names


def code_lines(text):
    """The lines that hold more than a comment, with their numbers, without comments."""
    plain = (COMMENT.sub(lambda match: match[1] or "", line).rstrip() for line in text.split("\n"))
    return [(number, line) for number, line in enumerate(plain, 1) if line]


def items(lines):
    """Splits lines where one stands as far left as the first."""
    groups, left = [], re.match(" *", lines[0][1])[0] if lines else ""
    for line in lines:
        if not line[1].startswith((left + " ", left + "}")):
            groups.append([])
        groups[-1].append(line)
    return groups


def head_and_body(lines):
    """Splits the lines of a type, a record or a `module _` behind the `where` of its head."""
    end = next(number for number, (_, line) in enumerate(lines, 1) if re.search(r"(^|\s)where$", line))
    return lines[:end], lines[end:]


def definitions(module, lines, inside=()):
    """The definitions of a file, of a `mutual` or of a `module _`."""
    found = []
    for item in items(lines):
        first = item[0][1].strip()
        if BLOCK.match(first):
            found += definitions(module, item[1:], inside)
        elif PARAMETERS.match(first):
            head, body = head_and_body(item)
            found += definitions(module, body, (*inside, Definition(module, "module _", "module", head, inside)))
        elif not re.match(r"((pub )?(use|mod)|unfolding) ", first):
            marks, title = HEAD.match(first).groups()
            kind = next((mark for mark in ("data", "record") if mark in marks.split()), "")
            if not found or kind or found[-1].kind or found[-1].title != title:
                found.append(Definition(module, title, kind, [], inside))
            found[-1].lines += item
    return found


def tree(lines):
    """The words of lines, brackets as lists that begin with the opening one."""
    stack = [[]]
    for token in (match["word"] for match in TOKEN.finditer("\n".join(line for _, line in lines)) if match["word"]):
        if token in CLOSING:
            stack.append([token])
        elif token in CLOSING.values():
            inner = stack.pop()
            assert CLOSING[inner[0]] == token, lines
            stack[-1].append(inner)
        else:
            stack[-1].append(token)
    assert len(stack) == 1, lines
    return stack[0]


def split(parts, *marks):
    groups = [[]]
    for part in parts:
        groups[-1].append(part)
        if part in marks:
            groups[-1].pop()
            groups.append([])
    return groups


def split_once(parts, mark):
    at = parts.index(mark)
    return parts[:at], parts[at + 1:]


def without_marks(parts):
    return [part for part in parts if part not in MARKS]


class Reader:
    """Collects in `found` what words mean, but for those that a binder binds where they stand."""

    def __init__(self, scope):
        self.scope, self.found = scope, []

    def word(self, word, bound):
        if word not in BUILT_IN and word.split(".")[0] not in bound and not re.match(r"\d", word):
            self.found.append(self.scope.meaning(word))

    def phrase(self, parts, bound):
        """Reads a phrase, and adds to `bound` what it binds up to its end."""
        parts = list(parts)
        while parts:
            part = parts.pop(0)
            if part == "λ":
                binders, parts = split_once(parts, ".")
                for binder in binders:
                    bound |= self.binder(binder, bound)
            elif part == "let":
                (name, *value), parts = split_once(parts, "in")
                self.phrase(value, set(bound))
                bound.add(name)
            elif isinstance(part, list):
                bound |= self.bracket(part, bound)
            else:
                self.word(part, bound)

    def binder(self, binder, bound):
        """Reads one binder of a `λ`, and returns what it binds: a plain name itself, whatever it means elsewhere."""
        if isinstance(binder, str):
            return {binder}
        return self.bracket(binder, bound) if ":" in binder else self.pattern(binder[1:])

    def bracket(self, part, bound):
        """Reads what stands in brackets, and returns what it binds behind them."""
        mark, *inner = part
        if mark == "[":
            for case in filter(None, split(inner, "|")):
                pattern, value = split_once(case, "↦")
                self.phrase(value, bound | self.pattern(pattern))
        elif ":" in inner:
            names, kind = split_once(inner, ":")
            self.phrase(kind, set(bound))
            return set(names)
        else:
            for one in split(inner, ",", ";"):
                label_ends = one.index("=") + 1 if mark == "{" and "=" in one else 0
                self.phrase(one[label_ends:], set(bound))
        return set()

    def pattern(self, parts):
        """Reads a pattern, and returns what it binds: all names but those of constructors."""
        names = set()
        for part in parts:
            if isinstance(part, list):
                mark, *inner = part
                names |= self.pattern(inner[inner.index("=") + 1 if "=" in inner else 0:])
            elif part in (",", ";", "_") or re.match(r"\d", part):
                continue
            elif self.scope.is_constructor(part):
                self.word(part, set())
            else:
                names.add(part)
        return names

    def statement(self, lines, bound):
        """Reads a signature or a clause, with the definitions behind its `where`."""
        ends = [number for number, (_, line) in enumerate(lines) if line.strip() == "where"]
        local = items(lines[ends[0] + 1:]) if ends else []
        inner = bound | {HEAD.match(item[0][1])[2] for item in local}
        parts = without_marks(tree(lines[:ends[0]] if ends else lines))[1:]
        if "=" in parts and (":" not in parts or parts.index("=") < parts.index(":")):
            pattern, parts = split_once(parts, "=")
            self.phrase(parts, inner | self.pattern(pattern))
        else:
            self.phrase(parts, set(inner))
        for item in local:
            self.statement(item, inner)

    def definition(self, definition):
        bound = set()
        for module in definition.inside:
            self.phrase(tree(module.lines)[2:], bound)
        if definition.kind in ("data", "record"):
            head, body = head_and_body(definition.lines)
            (_, *parameters), kind = split_once(without_marks(tree(head)), ":")
            self.phrase(parameters, bound)
            self.phrase(kind, set(bound))
            for item in items(body):
                names, kind = split_once(without_marks(tree(item)), ":")
                self.phrase(kind, set(bound))
                bound |= set(names) if definition.kind == "record" else set()
        elif definition.kind != "module":
            for item in items(definition.lines):
                self.statement(item, bound)


class Scope:
    """What the words of a file mean by its `use` lines; all other words of a file of code are the code's own."""

    def __init__(self, text):
        self.text, self.uses = text, uses(text)

    def imported(self, word):
        """The module and the name that a word means by a `use` line, or nothing."""
        front, _, rest = word.partition(".")
        at, name = self.uses.get(front, (None, None))
        return at and (at, name or rest.split(".")[0])

    def meaning(self, word):
        """The definition, or what is outside, that a word means; nothing where it is the code's own."""
        at, name = self.imported(word) or (None, None)
        return at and (module_of(at).meaning(name) if file_of(at).exists() else Outside(at, name))

    def is_constructor(self, word):
        at, name = self.imported(word) or (None, None)
        return bool(name) and (not file_of(at).exists() or module_of(at).is_constructor(name))


class Module(Scope):
    """A file in `specs/`: its definitions, and which of them has each name."""

    def __init__(self, name):
        super().__init__(file_of(name).read_text())
        self.name, self.definitions = name, definitions(name, code_lines(self.text))
        self.titles = {definition.title: definition for definition in self.definitions}
        if len(self.titles) < len(self.definitions):
            raise ValueError(f"{file_of(name)}: the lines of a definition don't stand together")
        self.constructors = {}
        for definition in self.definitions:
            for item in items(head_and_body(definition.lines)[1]) if definition.kind == "data" else []:
                self.constructors |= dict.fromkeys(split_once(tree(item), ":")[0], definition)

    def meaning(self, word):
        front = word.split(".")[0]
        found = self.constructors.get(front) or self.titles.get(front) or super().meaning(word)
        if not found:
            raise ValueError(f"{file_of(self.name)}: what does {word} mean?")
        return found

    def is_constructor(self, word):
        return word in self.constructors or word not in self.titles and super().is_constructor(word)


@cache
def module_of(name):
    return Module(name)


@cache
def cited(definition):
    """What the words of a definition mean."""
    module = module_of(definition.module)
    reader = Reader(module)
    reader.definition(definition)
    return [*definition.inside, *reader.found]


def cited_by_clause(clause, scope):
    """What the words of a clause of a contract mean."""
    reader = Reader(scope)
    reader.phrase(tree([(1, clause)]), set())
    return [found for found in reader.found if found]


def reach(words):
    """All definitions, and all outside, on which these rest, in the order in which they are met."""
    seen, left = {}, list(words)[::-1]
    while left:
        one = left.pop()
        if one not in seen:
            seen[one] = None
            left += cited(one)[::-1] if isinstance(one, Definition) else []
    return list(seen)
