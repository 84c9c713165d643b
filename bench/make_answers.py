#!/usr/bin/env python3
"""Makes texts that bring about each kind of answer of each command, as files of the current directory, and prints the calls.

  make_answers.py

A line for each call: its name, its status, its first line as a pattern of the shell, and its words, with tabs between. The
answers are those that README and PROFILE tell.
"""
from make_triple import HEAD, marked

XSLT = "http://www.w3.org/1999/XSL/Transform"
SOURCE, TARGET, NARROW = "element a { empty }", "element r { element x { empty }* }", "element r { empty }"
# The certificate of one of these schemas and the stylesheet that puts out `r` with an `x` in it, with the pairs of one set.
CERTIFICATE = "xslt-typecheck certificate 1\noutputs 1\nm %s\ntrees 1\nt 0 0 1 0 -\nhedges 1\nh 0 0 0 0 -\nend\n"
SCHEMAS = {
    "malformed": "element a {",
    "too-deep": "element a { " + "(" * 2001 + "text" + ")" * 2001 + " }",
    "twice": "start = a a = element a { empty } a = element b { empty }",
    "undefined": "start = b",
    "loop": "start = a a = a",
    "bad-except": "element * - * { empty }",
    "bad-start": "start = text",
    "unsupported data": "element a { string }",
    "unsupported value": 'element a { "v" }',
    "unsupported list": "element a { list { text } }",
    "unsupported external": 'external "f"',
    "unsupported include": 'include "f"',
    "unsupported grammar": "element a { grammar { start = text } }",
    "unsupported parent": "element a { parent b }",
    "unsupported inherit": "default namespace = inherit element a { empty }",
    "unsupported annotation": '[ a = "b" ] element a { empty }',
    "unsupported escape": "element \\x{61} { empty }",
    "unsupported triple-quote": 'namespace p = """u""" element a { empty }',
    "unsupported concatenation": 'namespace p = "u" ~ "v" element a { empty }',
}
DECLARATIONS = {
    "malformed": "x",
    "too-deep": f"<!ELEMENT a {'(' * 2001}b{')' * 2001}>",
    "twice": "<!ELEMENT a EMPTY><!ELEMENT a EMPTY>",
    "unsupported parameter-entity": "<!ELEMENT a EMPTY>%e;",
    "unsupported conditional-section": "<![INCLUDE[<!ELEMENT a EMPTY>]]>",
    "unsupported qualified-name": "<!ELEMENT p:a EMPTY>",
    "unsupported encoding": "<?xml encoding='ISO-8859-1'?><!ELEMENT a EMPTY>",
    "unsupported xml-version": "<?xml version='1.1' encoding='UTF-8'?><!ELEMENT a EMPTY>",
}
DOCUMENTS = {
    "malformed": "<a>",
    "too-deep": "<a>" * 2001 + "</a>" * 2001,
    "unsupported doctype-subset": "<!DOCTYPE a []><a/>",
    "unsupported entity": "<a>&nbsp;</a>",
    "unsupported encoding": "<?xml version='1.0' encoding='ISO-8859-1'?><a/>",
    "unsupported xml-space": "<a xml:space='preserve'/>",
    "unsupported xml-version": "<?xml version='1.1'?><a/>",
}
TOPS = {
    "param": '<xsl:param name="v"/>', "import": '<xsl:import href="f"/>', "xsl-include": '<xsl:include href="f"/>',
    "key": '<xsl:key name="k" match="a" use="b"/>', "attribute-set": '<xsl:attribute-set name="s"/>',
    "namespace-alias": '<xsl:namespace-alias stylesheet-prefix="p" result-prefix="xsl"/>',
    "decimal-format": "<xsl:decimal-format/>", "preserve-space": '<xsl:preserve-space elements="a"/>',
}  # fmt: skip
BODIES = {
    "variable": '<xsl:variable name="v"/>', "with-param": '<xsl:call-template name="n"><xsl:with-param name="v"/></xsl:call-template>',
    "sort": "<xsl:apply-templates><xsl:sort/></xsl:apply-templates>", "number": "<xsl:number/>", "message": "<xsl:message/>",
    "comment": "<xsl:comment/>", "processing-instruction": '<xsl:processing-instruction name="p"/>',
    "apply-imports": "<xsl:apply-imports/>", "fallback": "<xsl:fallback/>", "copy-of": '<xsl:copy-of select="a"/>',
    "disable-output-escaping": '<xsl:text disable-output-escaping="yes">t</xsl:text>',
    "computed-name": '<xsl:element name="{a}"/>', "use-attribute-sets": '<r xsl:use-attribute-sets="s"/>', "unknown-xslt": "<xsl:other/>",
}  # fmt: skip
SELECTS = {
    "axis": "self::a", "dot": "./a", "absolute": "/a", "function": "id('a')", "comparison": "a = b", "arithmetic": "1",
    "predicate": "@k[a]", "variable-reference": "$v", "string": "'s'",
}  # fmt: skip
TEMPLATE = '<xsl:template match="/"><r/></xsl:template>'


def sheet(rules, attributes='version="1.0"'):
    return f'<xsl:stylesheet {attributes} xmlns:xsl="{XSLT}" xmlns:p="u">{rules}</xsl:stylesheet>'


def rule(match, body, more=""):
    return f'<xsl:template match="{match}"{more}>{body}</xsl:template>'


def named(number, body):
    return f'<xsl:template name="n{number}">{body}</xsl:template>'


def call(number):
    return f'<xsl:call-template name="n{number}"/>'


def refused_sheets():
    """Stylesheets that are refused, by their reasons."""
    found = {"malformed": "<a", "too-deep": sheet(rule("/", f'<xsl:if test="{"(" * 2001}a{")" * 2001}"><r/></xsl:if>'))}
    found["undefined"] = sheet(rule("/", call(1)))
    found["call-loop"] = sheet(rule("/", call(1)) + named(1, call(2)) + named(2, call(1)))
    found["unsupported simplified"] = f'<r xsl:version="1.0" xmlns:xsl="{XSLT}"/>'
    found["unsupported version"] = sheet(TEMPLATE, 'version="1.1"')
    found["unsupported extension"] = sheet(TEMPLATE, 'version="1.0" extension-element-prefixes="p"')
    found["unsupported attribute"] = sheet(rule("/", '<xsl:value-of select="@k"/>'))
    for word, top in TOPS.items():
        found[f"unsupported {word}"] = sheet(top + TEMPLATE)
    for word, body in BODIES.items():
        found[f"unsupported {word}"] = sheet(rule("/", body))
    for word, select in SELECTS.items():
        found[f"unsupported {word}"] = sheet(rule("/", f'<xsl:apply-templates select="{select}"/>'))
    return found


class Calls:
    """Makes files, and prints calls with them."""

    def __init__(self):
        self.made = 0

    def file(self, text):
        """The name of a new file with a text."""
        self.made += 1
        with open(f"f{self.made}", "w", encoding="utf-8") as file:
            file.write(text)
        return f"f{self.made}"

    @staticmethod
    def call(name, status, line, *words):
        print(name, status, line, " ".join(map(str, words)), sep="\t")

    def refused(self, command, kind, texts, *words):
        """A call for each reason; among the words the text's file stands at `?`, alone or behind a colon."""
        for reason, text in texts.items():
            file = self.file(text)
            placed = [word.replace("?", file) for word in words]
            operand = next(word for word in placed if word.rpartition(":")[2] == file)
            self.call(f"{command}: {kind}, {reason}", 3, f"refused {operand} {reason} at *", command, *placed)

    def limit(self, name, told, *words):
        self.call(name, 4, f"limit {told}", *words)


def answers(calls):
    """Yes and no of each command, and what can't be read."""
    i, o, n, s, d = map(calls.file, (SOURCE, TARGET, NARROW, sheet(rule("/", "<r><x/></r>")), "<a/>"))
    declared, other = calls.file("<!ELEMENT a EMPTY>"), calls.file("<b/>")
    certificate, narrow = (calls.file(CERTIFICATE % pairs) for pairs in ("0>0 1>1 2>2 3>3 4>4", "0>0 1>1 2>2"))
    for words in (["check", i, o, s], ["check", "--limit", "9", f"dtd:a:{declared}", o, s]):
        calls.call(f"{words[0]}: yes", 0, "safe trees 1 hedges 1 outputs 1", *words)
    calls.call("check: no", 1, "unsafe", "check", i, n, s)
    calls.call("prove: yes", 0, "xslt-typecheck certificate 2", "prove", i, o, s)
    calls.call("prove: no", 1, "unsafe", "prove", i, n, s)
    calls.call("verify: yes", 0, "accepted", "verify", i, o, s, certificate)
    calls.call("verify: no", 1, "rejected 5 root", "verify", i, n, s, narrow)
    calls.call("verify: no, by its form", 1, "rejected 1 form", "verify", i, o, s, d)
    calls.call("upgrade: yes", 0, "xslt-typecheck certificate 2", "upgrade", certificate)
    calls.call("upgrade: no", 1, "rejected 1 form", "upgrade", d)
    calls.call("dead: yes", 0, "rule 1 used <a/>", "dead", i, s)
    calls.call("dead: no", 1, "rule 1 dead", "dead", i, calls.file(sheet(rule("b", ""))))
    calls.call("run: yes", 0, "<r><x/></r>", "run", s, d)
    for words in (["valid"], ["valid", "--stream", "7"]):
        calls.call(f"{' '.join(words)}: yes", 0, "valid", *words, i, d)
        calls.call(f"{' '.join(words)}: no", 1, "invalid", *words, i, other)
    calls.call("include: yes", 0, "included trees * hedges *", "include", n, o)
    calls.call("include: no", 1, "not-included", "include", o, n)
    calls.call("same: yes", 0, "same", "same", i, f"dtd:a:{declared}")
    calls.call("same: no", 1, "different", "same", o, n)
    calls.call("demo: yes", 0, "safe trees 3 hedges *", "demo", 3)
    calls.call("usage", 2, "usage: *", "demo", 41)
    lines = ["check ? ? ?", "prove ? ? ?", "verify ? ? ? ?", "upgrade ?", "dead ? ?", "run ? ?", "valid ? ?", "valid --stream 7 ? ?", "include ? ?", "same ? ?"]
    for line in lines:
        calls.call(f"{line.partition(' ?')[0]}: no file", 5, "cannot read nothing", line.replace("?", "nothing"))
    return i, o, s, d


def refusals(calls, i, o, s, d):
    """Each reason by one command, and a malformed text in each place of each command."""
    calls.refused("valid", "a schema", SCHEMAS, "?", d)
    calls.refused("valid", "declarations", DECLARATIONS, "dtd:a:?", d)
    calls.refused("valid", "a document", DOCUMENTS, i, "?")
    calls.refused("valid", "a document in pieces", DOCUMENTS, "--stream", "7", i, "?")
    calls.refused("run", "a stylesheet", refused_sheets(), "?", d)
    calls.refused("run", "a document", DOCUMENTS, s, "?")
    wrong = {"malformed": "{<"}
    for command in ("check", "prove"):
        for words in (["?", o, s], [i, "?", s], [i, o, "?"]):
            calls.refused(command, f"place {words.index('?') + 1}", wrong, *words)
    for words in (["?", o, s, d], [i, "?", s, d], [i, o, "?", d]):
        calls.refused("verify", f"place {words.index('?') + 1}", wrong, *words)
    for words in (["?", s], [i, "?"]):
        calls.refused("dead", f"place {words.index('?') + 1}", wrong, *words)
    for command in ("include", "same"):
        for words in (["?", o], [i, "?"]):
            calls.refused(command, f"place {words.index('?') + 1}", wrong, *words)


def names(count):
    return [f"x{number}" for number in range(count)]


def schema_limits(calls, o, s, d):
    """The limits of schemas."""
    choice = " | ".join(names(1025))
    several = " | ".join(f"element {name} {{ empty }}" for name in names(257))
    nested = "(text, " * 1100 + "text" + ")?" * 1100
    schemas = {
        "pattern 65536": f"element a {{ {', '.join(['text'] * 65536)} }}",
        "depth 2000": f"element a {{ {nested} }}",
        "elements 256": f"start = {several}",
        "states 512": f"element a {{ {', '.join(['text'] * 600)} }}",
        "symbols 1024": f"element ({choice}) {{ empty }}",
    }
    for told, text in schemas.items():
        file = calls.file(text)
        for words in (["valid", file, d], ["valid", "--stream", "7", file, d], ["include", file, o], ["same", file, o]):
            calls.limit(f"{' '.join(words[:-2])}: {told}", told, *words)
        of_all(calls, told, file, o, s, d)
        of_dead(calls, told, file, s)
    output = calls.file(f"element r {{ {', '.join(['text'] * 300)} }}")
    of_all(calls, "states 256", calls.file(SOURCE), output, s, d)


def of_all(calls, told, i, o, s, d):
    """The same limit of the commands that take two schemas and a stylesheet; what a certificate holds is looked at later."""
    for words in (["check", i, o, s], ["prove", i, o, s], ["verify", i, o, s, d]):
        calls.limit(f"{words[0]}: {told}", told, *words)


def of_dead(calls, told, i, s):
    """A limit of `dead`, which takes no output schema."""
    calls.limit(f"dead: {told}", told, "dead", i, s)


def moves(count):
    """So many selects of nine states."""
    return "".join(f'<xsl:apply-templates select="a/a/a/a/a/a/a/a/a" mode="m{number}"/>' for number in range(count))


def sheet_limits(calls, i, o, d):
    """The limits of stylesheets."""
    chain = "".join(named(number, f"<xsl:copy>{call(number + 1)}</xsl:copy>") for number in range(4100)) + named(4100, "")
    sheets = {
        "symbols 1024": sheet("".join(rule(name, "<r/>") for name in names(1025))),
        "predicates 6": sheet("".join(rule(f"a[{name}]", "<r/>") for name in names(7))),
        "ancestors 64": sheet("".join(rule(f"{name}/y", "<r/>") for name in names(70))),
        "selects 4096": sheet(rule("a", moves(460))),
    }
    deep = {
        "calls 8000": sheet(rule("/", call(0)) + chain),
        "entries 8192": sheet("".join(rule(f"{name}/y", "<r/>") for name in names(9)) + rule("a", moves(115))),
    }
    for told, text in {**sheets, **deep}.items():
        file = calls.file(text)
        of_all(calls, told, i, o, file, d)
        of_dead(calls, told, i, file)
        if told in sheets:
            calls.limit(f"run: {told}", told, "run", file, d)
    doubled = "".join(named(number, call(number + 1) * 2) for number in range(22)) + named(22, "t")
    calls.limit("run: work 4000000", "work 4000000", "run", calls.file(sheet(rule("/", call(0)) + doubled)), d)
    calls.limit("run: open 8000", "open 8000", "run", calls.file(deep["calls 8000"]), d)


def places_told(calls, i, s, tree):
    """What else `dead` tells: of declarations, of no places, and of a schema whose only document is too large."""
    calls.call("dead: declarations", 0, "rule 1 used <a/>", "dead", f"dtd:a:{calls.file('<!ELEMENT a EMPTY>')}", s)
    calls.call("dead: no places", 0, "places 0 dead 0", "dead", i, calls.file(sheet("")))
    rules = rule("*", '<xsl:if test="*"><r/></xsl:if>') + rule("z", "<r/>")
    calls.call("dead: too large", 1, "rule 1 used document-too-large", "dead", tree, calls.file(sheet(rules)))


def other_limits(calls, i, o, s, d):
    """The limits of rows, of counterexamples, of files, and of documents in pieces."""
    zeros = calls.file("")
    with open(zeros, "wb") as file:
        file.truncate(67108865)
    two = calls.file("element a { element b { empty }*, element c { empty }* }")
    for command in ("check", "prove"):
        calls.limit(f"{command}: trees", "trees 1", command, "--limit", "1", two, o, s)
        calls.limit(f"{command}: file", "file 67108864", command, i, o, zeros)
    doubled = "start = e1 " + "".join(f"e{number} = element e{number} {{ e{number + 1}, e{number + 1} }} " for number in range(1, 11))
    tree = calls.file(f"{doubled} e11 = element e11 {{ empty }}")
    for command in ("check", "prove"):
        calls.limit(f"{command}: counterexample", "counterexample 2000", command, tree, calls.file(NARROW), s)
    places_told(calls, i, s, tree)
    calls.limit("include: counterexample", "counterexample 2000", "include", tree, calls.file(NARROW))
    calls.limit("same: counterexample", "counterexample 2000", "same", tree, calls.file("element q { notAllowed }"))
    of_dead(calls, "file 67108864", i, zeros)
    for words in (["valid", i, zeros], ["upgrade", zeros], ["run", s, zeros], ["verify", i, o, s, zeros], ["same", zeros, i]):
        calls.limit(f"{words[0]}: file", "file 67108864", *words)
    tag = calls.file(f"<a{' ' * 65536}/>")
    long_names = calls.file("".join(f"<{'n' * 2000}>" for _ in range(33)) + "".join(f"</{'n' * 2000}>" for _ in range(33)))
    for size in (7, 65536):
        calls.limit(f"valid --stream {size}: tag", "tag 65536", "valid", "--stream", size, i, tag)
        calls.limit(f"valid --stream {size}: names", "names 65536", "valid", "--stream", size, i, long_names)


def large_limits(calls):
    """The limits of sets of pairs, and of a certificate that is written: one of 67,108,865 bytes in version 2."""
    source, target, rules = marked(9, 64, 0)
    words = [calls.file(source), calls.file(target), calls.file(f"{HEAD}{rules}</xsl:stylesheet>")]
    for command in ("check", "prove"):
        calls.limit(f"{command}: outputs", "outputs 65536", command, *words)
    row, other = (",".join([digit] * 5684991) for digit in "01")
    text = f"xslt-typecheck certificate 1\noutputs 0\ntrees 2\nt 0 0 10 {row} -\nt 0 0 100 {other} -\nhedges 0\nend\n"
    calls.limit("upgrade: certificate", "certificate 67108864", "upgrade", calls.file(text))


def main():
    calls = Calls()
    i, o, s, d = answers(calls)
    refusals(calls, i, o, s, d)
    schema_limits(calls, o, s, d)
    sheet_limits(calls, i, o, d)
    other_limits(calls, i, o, s, d)
    large_limits(calls)


main()
