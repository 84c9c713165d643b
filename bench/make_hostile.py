#!/usr/bin/env python3
"""Writes texts as somebody might make them who means harm: as the files I and O (schemas), T (declarations of elements),
S (a stylesheet) and D (a document) of a directory, those of them that a kind has.

  make_hostile.py DIR KIND [WORD..]

What stands within one another, N deep:
  elements N          elements of a document
  braces N            elements of a schema; groups N: with a connector and a suffix at each
  pluses N            parentheses of a pattern, each with its suffix; empties N: each with a connector; suffixed N: with both
  starts N            choices below `start`
  classes N           parentheses of a name class; excepts N, excepts_attribute N: its excepts, without any parenthesis
  divisions N         `div`; balanced N: braces in an attribute
  particles N         parentheses of a declaration
  tests N             parentheses of a test; predicate N: of the test of one predicate; brackets N: predicates in predicates
  ifs N               tests in a rule; spots N: as many beside one another; reach N: one that holds on N elements
  copies N M          copies around a test that is M deep; branches N M: other instructions, of which each takes four elements
  open N M            named templates that call one another, each within M copies, the last around a test that is 2,000 deep, on
                      a node that is 1,999 deep; applies N M: a rule that goes on within M copies, on N elements
  residues P..        elements to each number that isn't a multiple of the product of some primes
  rows N              a certificate with N rows of trees and one more of lists, and what it is of
What is long:
  definitions N       references in a row; repeated_definitions N: each in a repetition
  calls N, modes N    templates in a row; twice N M: each calls the next one twice, the last has M tests that don't hold
  uncalled N          named templates that nobody calls; one_body N: N selects in one body; all_applied N M: of all
                      children, in each of M elements within one another; none_applied N M K: of children of a name that
                      only those above the last have, which has K others
  one PART N          a document or a schema of about N bytes, which are one PART of it
  marks MARKS N       N bytes of MARKS, or so many of the one with a number, as a schema, a stylesheet, a document and, where an
                      attribute holds them, a select
  attributes N; tags N: tags of 52 attributes; long_namespace N M: of a namespace name of M bytes; references N: with N zeros;
                      reference TEXT: one to the character of a number
  declarations N M    N declarations of prefixes, M children that declare one, and a wrong end; scopes N: a stylesheet of these
  prefixes N M        N declarations of prefixes, M names that have one; schema_prefixes N M: of a schema; prefixed N M: M
                      selects of one such name each; long_calls N M: M calls by a namespace name of N bytes
  chains N            attributes whose names come into one chain, in tags of some 65,000 bytes; others N: those of other names
  alike N             N declarations of prefixes that have one hash; unlike N: of others; alike_templates N: N names of templates
  names N             names of a class; optionals N: members that may be left out; interleaves N; doubled N: definitions that refer
                      to the next one twice; stars N M: N alternatives in M repetitions; subsets N M: M children, of which the one
                      N before the last matters
  nested K N          K selects of N predicates within one another; selects N: different tests; alternatives N M: of a pattern, of
                      M names; pairs N M: of two steps
  path N              a select of N steps; windows N, ancestors N: one, and a pattern, whose first step may be at any depth
  levels N M          N tests on each of M elements within one another

The same words give the same bytes.
"""
import itertools
import os
import random
import string
import sys

ANY = "start = any\nany = element * { (text | any)* }\n"
EMPTY = "start = element a { empty }\n"
FRONT = '<xsl:stylesheet version="1.0" xmlns:xsl="http://www.w3.org/1999/XSL/Transform">'
BACK = "</xsl:stylesheet>"
APPLY = "<xsl:apply-templates/>"
COPY = f'<xsl:template match="*"><xsl:copy>{APPLY}</xsl:copy></xsl:template>'


def sheet(rules):
    return f"{FRONT}{rules}{BACK}"


def rule(match, body):
    return f'<xsl:template match="{match}">{body}</xsl:template>'


def named(name, body):
    return f'<xsl:template name="{name}">{body}</xsl:template>'


def within(opening, inner, closing, depth):
    return opening * depth + inner + closing * depth


def test(condition, body):
    return f'<xsl:if test="{condition}">{body}</xsl:if>'


def deep_test(depth):
    """A test in as many parentheses, which holds on a node with a child d and no child c."""
    return within("c or d and not(", "c" if depth % 2 else "d", ")", depth)


# What stands within one another.


def elements(depth):
    return {"I": "start = e\ne = element a { e? }\n", "S": sheet(COPY), "D": within("<a>", "", "</a>", depth)}


def braces(depth):
    return {"I": "start = " + within("element a{", "empty", "}", depth), "D": "<a/>"}


def in_element(content):
    return {"I": f"start = element a{{{content}}}", "D": "<a/>"}


def groups(depth):
    return in_element(within("empty,element a{", "empty", "}?", depth - 1))


def pluses(depth):
    return in_element(within("(", "text", ")+", depth))


def empties(depth):
    return in_element(within("(empty,", "text", ")", depth))


def suffixed(depth):
    return in_element(within("(empty,", "text", ")?", depth))


def starts(depth):
    return {"I": "start = " + within("(notAllowed|", "element a{empty}", ")", depth), "D": "<a/>"}


def classes(depth):
    return {"I": "start = element " + within("(b|", "a", ")", depth) + "{empty}", "D": "<a/>"}


def excepts(depth):
    return {"I": f"element {'*-' * depth}a{{empty}}", "D": "<a/>"}


def excepts_attribute(depth):
    return {"I": f"element a{{attribute {'*-' * depth}a{{empty}}}}", "D": "<a/>"}


def divisions(depth):
    return {"I": within("div{", EMPTY, "}", depth), "D": "<a/>"}


def balanced(depth):
    return in_element("attribute b{" + within("{", "", "}", depth) + "}")


def particles(depth):
    return {"T": f"<!ELEMENT a {within('(c?,', 'c?', ')?', depth)}>", "D": "<a/>"}


def tests(depth):
    return {"S": sheet(rule("a", test(deep_test(depth), "<x/>"))), "D": "<a><d/></a>"}


def predicate(depth):
    return {"S": sheet(rule(f"a[{deep_test(depth - 1)}]", "<x/>")), "D": "<a><d/></a>"}


def brackets(depth):
    return {"S": sheet(rule("a", f'<xsl:apply-templates select="a{within("[a", "", "]", depth)}"/>')), "D": "<a/>"}


B = "start = element a { element b { empty }* }\n"


def ifs(depth):
    return {"I": B, "S": sheet(rule("a", within('<xsl:if test="b">', "<x/>", "</xsl:if>", depth))), "D": "<a><b/></a>"}


def spots(count):
    return {"I": B, "S": sheet(rule("a", test("b", "<x/>") * count)), "D": "<a><b/></a>"}


def reach(depth):
    return {"I": elements(1)["I"], "S": sheet(rule("/", test("/".join(["a"] * depth), "<x/>"))), "D": within("<a>", "", "</a>", depth)}


def around(opening, closing, depth, tests_depth):
    body = within(opening, test(deep_test(tests_depth), "<x/>"), closing, depth)
    schema = "start = element a { element d { empty } }\n"
    return {"I": schema, "O": ANY, "S": sheet(rule("a", f"<r>{body}</r>")), "D": "<a><d/></a>"}


def copies(depth, tests_depth):
    return around("<xsl:copy>", "</xsl:copy>", depth, tests_depth)


def branches(depth, tests_depth):
    opening = '<xsl:if test="d"><xsl:element name="x"><xsl:choose><xsl:when test="c"/><xsl:otherwise>'
    return around(opening, "</xsl:otherwise></xsl:choose></xsl:element></xsl:if>", depth, tests_depth)


def call(number):
    return f'<xsl:call-template name="n{number}"/>'


def open_bodies(count, depth):
    last = test(deep_test(2000), "<x/>")
    rules = rule("/", '<xsl:apply-templates select=".//b"/>') + rule("b", call(1))
    for number in range(1, count + 1):
        inner = last if number == count else call(number + 1)
        rules += named(f"n{number}", within("<xsl:copy>s<xsl:text>t</xsl:text>", inner, "</xsl:copy>", depth))
    return {"S": sheet(rules), "D": within("<a>", "<b><d/></b>", "</a>", 1998)}


def applies(depth, count):
    return {"S": sheet(rule("a", within("<xsl:copy>", APPLY, "</xsl:copy>", count))), "D": within("<a>", "", "</a>", depth)}


def residues(*primes):
    """The schema I has elements within one another, as many as one likes. O has them where their number is a multiple of none of
    the primes but not of all; the stylesheet puts out an element for each prime of which it isn't, and elements within one
    another besides."""
    rules = "".join(f'<xsl:apply-templates mode="m{prime}-1"/>' for prime in primes)
    rules = rule("/", f"<r>{rules}<xsl:apply-templates/></r>") + rule("a", within("<x>", APPLY, "</x>", 2))
    other = "start = " + " | ".join(f"e{prime}_1" for prime in primes) + "\n"
    for prime in primes:
        for number in range(1, prime + 1):
            following = number % prime + 1
            last = "" if number == prime else "<xsl:otherwise><y/></xsl:otherwise>"
            step = f'<xsl:when test="a"><xsl:apply-templates mode="m{prime}-{following}"/></xsl:when>'
            rules += f'<xsl:template match="a" mode="m{prime}-{number}"><xsl:choose>{step}{last}</xsl:choose></xsl:template>'
            other += f"e{prime}_{number} = element a {{ e{prime}_{following}{'' if number == prime else '?'} }}\n"
    wanted = "start = element r { y+, x? }\ny = element y { empty }\nx = element x { x? }\n"
    return {"I": elements(1)["I"], "O": wanted, "A": other, "S": sheet(rules)}


def rows(count, optional=252):
    """All states lead to a few of those of the content of `r`, which all accept: so each set put behind another one is that set,
    and what the built-in rule puts out passes. States 0 and 1 are those of the start, 2 is that of `x`, and the others of `r`."""
    states = range(4 + optional)
    chosen = itertools.islice(itertools.combinations(states[4:], 2), count - 1)
    sets = [[(start, to) for start in states for to in (3, *few)] for few in chosen]
    lines = sorted("m " + " ".join(f"{start}>{to}" for start, to in each) for each in ([(state, state) for state in states], *sets))
    identity = next(number for number, line in enumerate(lines) if line.startswith("m 0>0"))
    trees = sorted(f"t 0 0 1 {number} -" for number in range(count))
    hedges = sorted([f"h 0 0 0 {identity} -", *(f"h 0 0 1 {number} -" for number in range(count))])
    parts = [f"outputs {count}", *lines, f"trees {count}", *trees, f"hedges {count + 1}", *hedges, "end\n"]
    return {
        "I": "start = a\na = element a { a* }\n",
        "O": f"start = r\nx = element x {{ empty }}\nr = element r {{ {', '.join(['x?'] * optional)} }}\n",
        "S": sheet(rule("/", f"<r>{APPLY}</r>")),
        "C": "\n".join(["xslt-typecheck certificate 1", *parts]),
    }


# What is long.


def definitions(count, suffix=""):
    lines = "".join(f"a{number} = a{number + 1}{suffix}\n" for number in range(count))
    return {"I": f"start = element a {{ a0 }}\n{lines}a{count} = empty\n", "D": "<a/>"}


def repeated_definitions(count):
    return definitions(count, "+")


def calls(count):
    rules = rule("/", call(1)) + "".join(named(f"n{number}", call(number + 1)) for number in range(1, count))
    return {"I": EMPTY, "O": ANY, "S": sheet(rules + named(f"n{count}", "<r/>")), "D": "<a/>"}


def modes(count):
    rules = "".join(
        f'<xsl:template match="a" mode="m{number}"><xsl:apply-templates mode="m{number + 1}"/></xsl:template>'
        for number in range(count)
    )
    return {"I": EMPTY, "O": ANY, "S": sheet(rule("/", '<xsl:apply-templates mode="m0"/>') + rules), "D": "<a/>"}


def uncalled(count):
    rules = "".join(named(f"n{number}", f"<e{number % 900}><b/></e{number % 900}>") for number in range(count))
    return {"I": EMPTY, "O": EMPTY, "S": sheet(COPY + rules), "D": "<a/>"}


def one_body(count):
    paths = itertools.islice(itertools.combinations(range(900), 2), count)
    body = "".join(f'<xsl:apply-templates select="x{one}|x{other}"/>' for one, other in paths)
    return {"S": sheet(rule("a", body)), "D": "<a/>"}


def twice(count, false_tests):
    rules = rule("/", call(1)) + "".join(named(f"n{number}", call(number + 1) * 2) for number in range(1, count))
    last = "".join(test(f"b{number % 900}", "<x/>") for number in range(false_tests))
    return {"S": sheet(rules + named(f"n{count}", last)), "D": "<a/>"}


def all_applied(count, depth):
    return {"S": sheet(rule("*", f"<xsl:copy>{APPLY * count}</xsl:copy>")), "D": within("<a>", "", "</a>", depth)}


def none_applied(count, depth, others):
    selects = '<xsl:apply-templates select="a"/>' * count
    return {"S": sheet(rule("*", f"<xsl:copy>{selects}</xsl:copy>")), "D": within("<a>", "<b/>" * others, "</a>", depth)}


PARTS = {
    "text": ("<a>", "x", "</a>"),
    "white": ("<a>", "\r", "</a>"),
    "comment": ("<a><!--", "x", "--></a>"),
    "cdata": ("<a><![CDATA[", "x", "]]></a>"),
    "instruction": ("<a><?p ", "x", "?></a>"),
    "value": ('<a k="', "x", '"/>'),
    "name": ("<", "a", "/>"),
    "brackets": ("<a>", "]]", "</a>"),
    "characters": ("<a>", "\U0001f600", "</a>"),
    "spaces": ("<a", " ", "/>"),
    "empty": ("<a>", "<b/>", "</a>"),
    "references": ("<a>", "&lt;", "</a>"),
    "sections": ("<a>", "<![CDATA[]]>", "</a>"),
    "comments": ("<a>", "<!---->", "</a>"),
}
SCHEMA_PARTS = {
    "literal": ('namespace p = "', "u", '" start = element p:a {empty}'),
    "identifier": ("start = element ", "b", " {empty}"),
    "note": ("#", "x", "\nstart = element b {empty}"),
    "lines": ("", "#\n", "start = element b {empty}"),
}


def one(part, size):
    for name, parts in (("D", PARTS), ("I", SCHEMA_PARTS)):
        if part in parts:
            front, unit, back = parts[part]
            times = (int(size) - len(front) - len(back)) // len(unit.encode())
            return {"I": ANY, "D": "<a/>", name: [front, unit * times, back]}
    sys.exit(f"no part: {part}")


def marks(unit, size):
    unit = chr(unit) if isinstance(unit, int) else unit
    text = unit * (int(size) // len(unit.encode()))
    files = {"A": ANY, "I": text, "S": text, "D": text}
    if not set(unit) & set('<&"'):
        files["P"] = [FRONT, '<xsl:template match="a"><xsl:apply-templates select="', text[: int(size) - 300], '"/></xsl:template>', BACK]
    return files


def letters(count, length):
    return ("".join(name) for name in itertools.islice(itertools.product(string.ascii_letters, repeat=length), count))


def attributes(count):
    length = next(length for length in itertools.count(1) if 52**length >= count)
    return {"I": ANY, "D": ["<a", "".join(f' {name}=""' for name in letters(count, length)), "/>"]}


def tags(count):
    tag = "<b" + "".join(f' {name}=""' for name in string.ascii_letters) + "/>"
    return {"I": ANY, "D": ["<a>", tag * count, "</a>"]}


def long_namespace(count, size):
    return {"I": ANY, "D": [f'<a xmlns:p="{"u" * size}"', "".join(f' p:k{number}=""' for number in range(count)), "/>"]}


def references(zeros):
    return {"I": ANY, "D": f"<a>&#{'0' * zeros}65;</a>"}


def reference(number):
    return {"I": ANY, "D": f"<a>&#{number};</a>"}


def cut_tag():
    """A tag whose name has a fault, and that ends behind its slash: both readers tell the end."""
    return {"I": ANY, "D": "<p:e/"}


def declared(count):
    return "".join(f' xmlns:p{number}="u"' for number in range(count))


def declarations(count, children):
    kids = "".join(f'<e xmlns:q{number}="u"/>' for number in range(children))
    return {"I": ANY, "D": f"<a{declared(count)}>{kids}</b>"}


def scopes(count):
    body = "".join(f'<e xmlns:q{number}="u"/>' for number in range(2 * count))
    return {"S": FRONT[:-1] + declared(count) + ">" + rule("a", body) + BACK, "D": "<a/>"}


def prefixes(count, tests_count):
    path = "|".join(f"p{number * 7919 % count}:a" for number in range(tests_count))
    body = f'<xsl:apply-templates select="{path}"/>'
    return {"S": FRONT[:-1] + declared(count) + ">" + rule("a", body) + BACK, "D": "<a/>"}


def prefixed(count, selects_count):
    body = "".join(f'<xsl:value-of select="p{number * 7919 % count}:a"/>' for number in range(selects_count))
    return {"S": FRONT[:-1] + declared(count) + ">" + rule("a", body) + BACK, "D": "<a/>"}


def long_calls(size, count):
    rules = named("p:n", "") + rule("a", '<xsl:call-template name="p:n"/>' * count)
    return {"S": f'{FRONT[:-1]} xmlns:p="{"u" * size}">{rules}{BACK}', "D": "<a/>"}


def schema_prefixes(count, names_count):
    lines = "".join(f'namespace p{number} = "u"\n' for number in range(count))
    found = "|".join(f"p{number * 7919 % count}:a" for number in range(names_count))
    return {"I": f"{lines}start = element ({found}) {{ empty }}\n", "D": '<a xmlns="u"/>'}


NAME = string.ascii_letters + string.digits + "_"


def in_one_chain(count):
    """Names of five characters whose last twelve bits of FNV-1a are 0, so that (hash xor last) times the prime has these bits."""
    found = []
    for front in itertools.product(string.ascii_letters, NAME, NAME, NAME):
        state = 0x811C9DC5
        for character in front:
            state = (state ^ ord(character)) * 0x01000193
        last = chr(state % 4096) if state % 4096 < 128 else ""
        if last and last in NAME:
            found.append("".join(front) + last)
            if len(found) == count:
                return found
    return found


def tags_of(found, count):
    tag = "<b" + "".join(f' {name}=""' for name in found) + "/>"
    return {"I": ANY, "D": ["<a>", tag * count, "</a>"]}


def chains(count):
    return tags_of(in_one_chain(6500), count)


def others(count):
    return tags_of(list(letters(6500, 5)), count)


MULTIPLIER, STATE, ALL = 0x9E3779B97F4A7C15, 0x243F6A8885A308D3, 2**64 - 1


def folded(one, other):
    """How the tables of names mix two numbers of 64 bits: both halves of the product, joined by xor."""
    product = one * other
    return (product & ALL) ^ (product >> 64)


def of_one_hash(count, state=STATE):
    """Names of 48 characters that have one hash, where this state comes before. Their second 16 characters begin with the state
    that the first 16 lead to, which takes it to 0 whatever follows; the last 16 are the same."""
    for front in map("".join, itertools.product(NAME, repeat=16)):
        low, high = (int.from_bytes(half.encode(), "little") for half in (front[:8], front[8:]))
        led = folded(low ^ state + 48, high ^ MULTIPLIER).to_bytes(8, "little").decode("latin-1")
        if set(led) <= set(NAME):
            free = itertools.islice(itertools.product(NAME, repeat=8), count)
            return [front + led + "".join(each) + "e" * 16 for each in free]
    return []


def prefixes_of(found):
    return {"I": ANY, "D": ["<a", "".join(f' xmlns:{name}="u"' for name in found), "/>"]}


def alike(count):
    return prefixes_of(of_one_hash(count))


def unlike(count):
    return prefixes_of(f"{number:e>48}" for number in range(10**15, 10**15 + count))


def alike_templates(count):
    """Their names have no namespace, whose hash comes before."""
    state = folded(folded(STATE, MULTIPLIER) ^ 0xFFFFFF, MULTIPLIER ^ 2)
    return {"S": sheet(rule("a", "<r/>") + "".join(named(name, "") for name in of_one_hash(count, state))), "D": "<a/>"}


def names(count):
    return {"I": f"start = element ({'|'.join(f'a{number}' for number in range(count))}) {{ empty }}", "D": "<a0/>"}


X = "x = element x { empty }\ny = element y { empty }\n"


def content(pattern):
    return {"I": f"start = element a {{ {pattern} }}\n{X}", "D": "<a/>"}


def optionals(count):
    return content(", ".join(["x?"] * count))


def interleaves(count):
    return content(" & ".join(["x?"] * count))


def doubled(count):
    lines = "".join(f"a{number} = a{number + 1}, a{number + 1}\n" for number in range(count))
    return {"I": f"start = element a {{ a0 }}\n{lines}a{count} = empty\n", "D": "<a/>"}


def stars(count, depth):
    return content("(" * depth + "|".join(["x"] * count) + ")*" * depth)


def subsets(count, children):
    kids = random.Random(1).choices(["<x/>", "<y/>"], k=children)
    kids[-count - 1] = "<x/>"
    files = content("(x|y)*, x" + ", (x|y)" * count)
    return {"I": files["I"], "D": f"<a>{''.join(kids)}</a>"}


def nested(count, depth):
    selects = "".join(
        f'<xsl:apply-templates select="{within("a[", f"x{number}", "]", depth)}"/>' for number in range(1, count + 1)
    )
    return {"S": sheet(rule("a", selects)), "D": "<a/>"}


def selects(count):
    paths = ("/".join(steps) for steps in itertools.product("abcdefghij", repeat=5))
    return {"S": sheet(rule("a", test(" or ".join(itertools.islice(paths, count)), "<x/>"))), "D": "<a/>"}


def alternatives(count, names_count):
    return {"S": sheet(rule("|".join(f"x{number % names_count}" for number in range(count)), "<y/>")), "D": "<x0/>"}


def pairs(count, names_count):
    match = "|".join(f"x{number % names_count}/x{number * 7 % names_count}" for number in range(count))
    return {"S": sheet(rule(match, "<y/>")), "D": "<x0/>"}


def path(count):
    return {"S": sheet(rule("a", f'<xsl:apply-templates select="{"/".join(["*"] * count)}"/>')), "D": "<a/>"}


def windows(count):
    return {"S": sheet(rule("a", f'<xsl:apply-templates select=".//a{"/*" * (count - 1)}"/>')), "D": "<a/>"}


def ancestors(count):
    return {"S": sheet(rule(f"a{'/*' * (count - 1)}", "<x/>")), "D": "<a/>"}


def levels(count, depth):
    body = "".join(test(f".//x{number}", "<y/>") for number in range(count)) + APPLY
    return {"S": sheet(rule("a", body)), "D": within("<a>", "", "</a>", depth)}


KINDS = (
    elements, braces, groups, pluses, empties, suffixed, starts, classes, excepts, excepts_attribute, divisions, balanced,
    particles, tests, predicate, brackets, ifs, spots, reach, copies, branches, applies, residues, rows, definitions, repeated_definitions, calls,
    modes, uncalled, one_body, twice, all_applied, none_applied, one, marks, attributes, tags, long_namespace, references, reference,
    cut_tag, declarations, scopes,
    prefixes, prefixed, long_calls, schema_prefixes, chains, others, alike, alike_templates, unlike, names, optionals,
    interleaves, doubled, stars, subsets, nested, selects, alternatives, pairs, path, windows, ancestors, levels,
)  # fmt: skip


def main():
    place, kind, *words = sys.argv[1:]
    make = {"open": open_bodies, **{each.__name__: each for each in KINDS}}[kind]
    files = make(*[int(word) if word.isdigit() else word for word in words])
    os.makedirs(place, exist_ok=True)
    for name, text in files.items():
        with open(os.path.join(place, name), "wb") as file:
            for part in [text] if isinstance(text, str) else text:
                file.write(part.encode())


main()
