"""Texts grown at random from the grammars of what is read: schemas, declarations of elements, stylesheets, documents.

Most are accepted; a few hold, each at a small chance, something that is refused.
"""
NAMES = ["a", "b", "c", "e", "x"]
SPACES = ["u", "v"]
CLASSES = ["a", "b", "c", "a | b", "* - a", "*", "p:e", "p:*", "p:* - p:e", "(a | p:e)", "* - (a | p:*)", "\\text", "x | * - x", "((b))", "q:c", "* - p:* - a"]
REFUSED_PATTERNS = ["list { text }", '"v"', "string", "xsd:int", 'external "f"', "grammar { start = text }", "parent a", "[ a = \"b\" ] text", "text >> a [ ]", "undefined", 'token "x" ~ "y"', "xsd:string { length = \"3\" }"]
TESTS = ["true()", "false()", "not(true())", "@k", ".", "1", "a = b", "position()", "..", "/a", "'s'", "$v", "self::a", "not(@k)"]
REFUSED_PATHS = [".", "..", "/a", "//a", "a/@k/b", "a[1]", "a = 1", "id('a')", "$v", "a + b", "ancestor::a", "descendant::a", "@k[a]", "a[@k]", "comment()[a]", "count(a)", "'s'", "-a", "last()", "a/..", "./a", "/"]
REFUSED_INSTRUCTIONS = [
    '<xsl:variable name="v"/>', '<xsl:message/>', "<xsl:comment>c</xsl:comment>", '<xsl:processing-instruction name="p"/>', '<xsl:number/>',
    '<xsl:apply-imports/>', "<xsl:fallback/>", '<xsl:copy-of select="."/>', '<xsl:copy-of select="a"/>', '<xsl:element name="{a}"/>', '<xsl:element name="a" namespace="u"/>',
    '<xsl:call-template name="nothing"/>', '<xsl:apply-templates><xsl:sort/></xsl:apply-templates>', '<xsl:text disable-output-escaping="yes">x</xsl:text>',
    '<b xsl:use-attribute-sets="s"/>', '<b xsl:version="1.0"/>', "<xsl:other/>", '<xsl:call-template name="n1"><xsl:with-param name="v"/></xsl:call-template>',
    "<xsl:text><b/></xsl:text>", '<xsl:value-of/>', "<xsl:if><b/></xsl:if>", '<xsl:choose/>', "<xsl:choose>x</xsl:choose>",
]  # fmt: skip
REFUSED_TOPS = ['<xsl:import href="f"/>', '<xsl:include href="f"/>', '<xsl:param name="v"/>', '<xsl:key name="k" match="a" use="b"/>', '<xsl:attribute-set name="s"/>', '<xsl:namespace-alias stylesheet-prefix="p" result-prefix="q"/>', '<xsl:decimal-format/>', '<xsl:preserve-space elements="a"/>', "x", "<b/>", "<xsl:template/>"]
XSLT = "http://www.w3.org/1999/XSL/Transform"


class Grower:
    """Makes texts by a source of chance; each refused construct comes with a small one."""

    def __init__(self, chance, faults=0.01):
        self.chance, self.faults = chance, faults

    def one(self, *choices):
        return self.chance.choice(choices)

    def below(self, number):
        return self.chance.randrange(number)

    def likely(self, share):
        return self.chance.random() < share

    def faulty(self):
        return self.likely(self.faults)


class SchemaGrower(Grower):
    """Schemas in compact syntax."""

    def space(self):
        return self.one(" ", " ", " ", "\n", "\t", "\r\n", " # note\n", "\n\n")

    def maybe_space(self):
        return self.one("", "", " ", self.space())

    def names(self):
        text = self.one(*CLASSES)
        if self.faulty():
            return self.one("* - *", "p:* - *", "p:* - p:*", "z:a", "a - b", "", "* -", "a |")
        return text.replace(" ", self.space()) if self.likely(0.1) else text

    def element(self, depth, inner):
        content = self.pattern(depth, inner)
        return f"element{self.space()}{self.names()}{self.maybe_space()}{{{self.maybe_space()}{content}{self.maybe_space()}}}"

    def pattern(self, depth, references):
        kind = self.below(12 if depth else 6)
        if self.faulty():
            return self.one(*REFUSED_PATTERNS)
        if kind < 3:
            return self.one(*references) + self.one("", "", "*", "?", "+", " *")
        if kind == 3:
            return self.one("text", "empty", "empty", "notAllowed", "attribute k { text }", "attribute * - k { a | \"b\" }", "attribute p:k{xsd:int}?")
        if kind == 4:
            return self.one("text", "text", "empty")
        if kind == 5:
            return self.one(*references)
        if kind == 6:
            return self.element(depth - 1, references)
        if kind == 7:
            return f"mixed{self.maybe_space()}{{{self.pattern(depth - 1, references)}}}{self.one('', '', '*')}"
        parts = [self.pattern(depth - 1, references) for _ in range(2 + self.below(2))]
        joined = (self.maybe_space() + self.one(",", "|", "&") + self.maybe_space()).join(parts)
        return f"({joined}){self.one('', '', '*', '?', '+')}"

    def declarations(self):
        """Declarations of the prefixes p and q, and perhaps of a default namespace."""
        lines = ['namespace p = "u"', self.one('namespace q = "v"', "namespace q = 'v'", 'default namespace q = "v"')]
        if self.likely(0.2):
            lines.append(self.one('default namespace = "u"', 'datatypes xsd = "d"', 'default namespace = ""', 'namespace xml = "http://www.w3.org/XML/1998/namespace"'))
        if self.faulty():
            lines.append(self.one("namespace r = inherit", 'namespace p = "w"', "default namespace = inherit", "namespace", 'namespace xmlns = "x"'))
        self.chance.shuffle(lines)
        return "\n".join(lines) + "\n"

    def definitions(self, elements, contents):
        """Definitions of these names: the first are elements, and the others what stands in them."""
        lines = []
        for name in elements:
            lines.append(f"{name} = {self.element(2, elements + contents)}")
        for place, name in enumerate(contents):
            inner = elements + contents[place + 1 :]
            joins = self.one(["="], ["="], ["|=", "|="], ["&=", "=", "&="])
            lines += [f"{name} {join} {self.pattern(1, inner)}" for join in joins]
        if self.faulty():
            lines.append(self.one("e1 = text", "c1 |= text", "z = z", "e1 = e1", 'include "f"', "start = text"))
        self.chance.shuffle(lines)
        if self.likely(0.1):
            lines[0] = f"div {{ {lines[0]} }}"
        return lines

    def text(self, wide=False):
        """A schema; a wide one has a root that holds anything."""
        if self.likely(0.1) and not wide:
            return self.declarations() + self.element(3, ["element a { empty }", "element p:e { text }"])
        elements = [f"e{number}" for number in range(1, 2 + self.below(4))]
        contents = [f"c{number}" for number in range(1, 1 + self.below(3))]
        lines = self.definitions(elements, contents)
        starts = ["root"] if wide else self.chance.sample(elements, 1 + self.below(len(elements)))
        lines.insert(self.below(len(lines) + 1), f"start = {' | '.join(starts)}")
        if wide:
            lines.append(f"root = element * {{ (text | root | {' | '.join(elements)})* }}")
        body = self.one("\n", "\n", " ", "\n# note\n").join(lines) + self.one("", "\n")
        return self.declarations() + (f"grammar {{ {body} }}" if self.likely(0.1) else body)


class DeclarationsGrower(Grower):
    """Declarations of elements, with the document's element `a`."""

    def particle(self, depth):
        suffix = self.one("", "", "", "?", "*", "+")
        if not depth or self.likely(0.4):
            return self.one(*NAMES) + suffix
        parts = [self.particle(depth - 1) for _ in range(1 + self.below(3))]
        return f"({self.one(' , ', ',', '|', ' | ').join(parts)}){suffix}"

    def content(self):
        kind = self.below(7)
        if self.faulty():
            return self.one("(a, b | c)", "()", "(#PCDATA | a)", "%e;", "(a:b)", "EMPTY EMPTY", "(#PCDATA, a)*", "a")
        if kind == 0:
            return self.one("EMPTY", "EMPTY", "ANY")
        if kind == 1:
            return self.one("(#PCDATA)", "( #PCDATA )*")
        if kind == 2:
            return f"(#PCDATA | {' | '.join(self.one(*NAMES) for _ in range(1 + self.below(3)))})*"
        return f"({self.particle(2)}){self.one('', '', '*', '?', '+')}"

    def between(self):
        if self.faulty():
            return self.one("%e;", "<![INCLUDE[]]>", "x", "<!ELEMENT a ANY>", "<!ENTITY % e ''>", "<!OTHER>")
        return self.one("", "", "\n", " ", "<!-- % -->", '<!ATTLIST a k CDATA ">">', "<?p i?>", '<!NOTATION n SYSTEM "s">', "<!ENTITY f 'g'>")

    def text(self):
        kept = [name for name in NAMES if name == "a" or self.likely(0.85)]
        self.chance.shuffle(kept)
        front = self.one("", "", "<?xml version='1.0' encoding='UTF-8'?>", '<?xml encoding="utf-8"?>\n', "\ufeff")
        return front + "".join(f"<!ELEMENT {name} {self.content()}>{self.between()}" for name in kept)


class PathGrower(Grower):
    """Selects, patterns, values and tests."""

    def step(self, depth):
        test = self.one("a", "b", "c", "*", "a", "b", "x", "node()", "text()", "p:e", "p:*", "child::a", "child::*", "child :: text ( )")
        while depth and self.likely(0.15):
            test += f"[{self.test(depth - 1)}]"
        return test

    def steps(self, depth):
        found = self.step(depth)
        while self.likely(0.3):
            found += self.one("/", "/", "//", " / ") + self.step(depth)
        return found

    def select(self, depth=2):
        if self.faulty():
            return self.one(*REFUSED_PATHS)
        found = self.one("", "", "", ".//") + self.steps(depth)
        if self.likely(0.2):
            found += self.one("|", " | ") + self.one(self.steps(depth), "@k", "comment()", "processing-instruction()", "a/@*", "attribute::k")
        return found

    def pattern(self):
        if self.faulty():
            return self.one(*REFUSED_PATHS)
        if self.likely(0.15):
            return self.one("/", "/|a", "*|/", "@k", "a|@k", "comment()|b", "node()")
        found = self.one("", "", "", "/", "//") + self.steps(1)
        return found + (self.one("|", " |\n") + self.steps(1) if self.likely(0.2) else "")

    def test(self, depth=2):
        kind = self.below(8 if depth else 3)
        if self.faulty():
            return self.one(*TESTS)
        if kind < 3:
            return self.one("a", "b", "x", "*", "text()", "true()", "false()", "node()", "p:e", "b/c", ".//a")
        if kind == 3:
            return f"not({self.test(depth - 1)})"
        if kind == 4:
            return f"({self.test(depth - 1)})"
        if kind < 7:
            return self.one(" and ", " or ").join(self.test(depth - 1) for _ in range(2))
        return self.select(depth - 1).split("@")[0].rstrip("| /") or "a"

    def value(self):
        return "." if self.likely(0.4) else self.select(1)


class SheetGrower(PathGrower):
    """Stylesheets."""

    def mode(self):
        return self.one("", "", "", ' mode="m"', ' mode="p:k"', " mode='m'")

    def body(self, depth, calls):
        return "".join(self.instruction(depth, calls) for _ in range(self.below(4)))

    def instruction(self, depth, calls):
        kind = self.below(13 if depth else 6)
        if self.faulty():
            return self.one(*REFUSED_INSTRUCTIONS)
        if kind < 2:
            select = f' select="{self.select()}"' if self.likely(0.6) else ""
            return f"<xsl:apply-templates{select}{self.mode()}/>"
        if kind == 2:
            return self.one("x", "<xsl:text> </xsl:text>", "x<!-- c -->y", "<x/>", "<xsl:text>t&lt;</xsl:text>", "<![CDATA[ & ]]>", "&#65;")
        if kind == 3:
            return f'<xsl:value-of select="{self.value()}"/>'
        if kind == 4:
            return f'<xsl:call-template name="{self.one(*calls)}"/>' if calls else "<a/>"
        if kind == 5:
            return self.one("<a/>", '<xsl:attribute name="k">v<xsl:value-of select="d[e]"/></xsl:attribute>', '<xsl:copy-of select="@*"/>', '<b k="v{.}"/>', "<c/>")
        inner = self.body(depth - 1, calls)
        if kind in (6, 7):
            return self.one(f"<a>{inner}</a>", f"<r>{inner}</r>", f'<xsl:element name="p:e">{inner}</xsl:element>', f"<p:f>{inner}</p:f>", f'<e xmlns="v">{inner}</e>')
        if kind == 8:
            return f"<xsl:copy>{inner}</xsl:copy>"
        if kind == 9:
            return f'<xsl:if test="{self.test()}">{inner}</xsl:if>'
        if kind == 10:
            return f'<xsl:for-each select="{self.select()}">{inner}</xsl:for-each>'
        return self.choose(depth, calls, inner)

    def choose(self, depth, calls, inner):
        whens = f'<xsl:when test="{self.test()}">{inner}</xsl:when>'
        if self.likely(0.4):
            whens += f'<xsl:when test="{self.test()}">{self.body(depth - 1, calls)}</xsl:when>'
        others = f"<xsl:otherwise>{self.body(depth - 1, calls)}</xsl:otherwise>" if self.likely(0.6) else ""
        return f"<xsl:choose>{whens}{others}</xsl:choose>"

    def template(self, named, later):
        priority = f' priority="{self.one("1", "-2.5", "0.50", ".3", "-.25", " 0 ")}"' if self.likely(0.15) else ""
        name = f' name="{named}"' if named else ""
        if named and self.likely(0.7):
            return f"<xsl:template{name}>{self.body(2, later)}</xsl:template>"
        return f'<xsl:template match="{self.pattern()}"{name}{priority}{self.mode()}>{self.body(2, later)}</xsl:template>'

    def text(self, root=True):
        names = [f"n{number}" for number in range(1, 1 + self.below(3))]
        templates = [self.template(name, names[place + 1 :]) for place, name in enumerate(names)]
        templates += [self.template("", names) for _ in range(1 + self.below(5))]
        if root and self.likely(0.8):
            templates.append(f'<xsl:template match="/"><r>{self.body(2, names)}<xsl:apply-templates/></r></xsl:template>')
        self.chance.shuffle(templates)
        if self.likely(0.1):
            templates.insert(0, self.one('<xsl:output indent="no"/>', '<xsl:strip-space elements="*"/>', "<p:top>x</p:top>", "<!-- c -->"))
        if self.faulty():
            templates.append(self.one(*REFUSED_TOPS))
        word = self.one("stylesheet", "stylesheet", "transform")
        front = self.one("", "", '<?xml version="1.0"?>', "<!-- c -->\n")
        text = f'{front}<xsl:{word} version="1.0" xmlns:xsl="{XSLT}" xmlns:p="u">{self.one("", chr(10)).join(templates)}</xsl:{word}>'
        return text.replace("xsl:", "t:").replace(":xsl=", ":t=") if self.likely(0.1) else text


class DocumentGrower(Grower):
    """Trees, and documents that spell a tree in one of many ways."""

    def tree(self, depth):
        name = ("u", "e") if self.likely(0.1) else ("", self.one(*NAMES))
        children = []
        for _ in range(self.below(4) if depth else 0):
            text = children and isinstance(children[-1], str)
            children.append(self.one("t", "x y", "&", "<>", "1") if not text and self.likely(0.25) else self.tree(depth - 1))
        return name, tuple(children)

    def characters(self, text):
        """A text, each character as it is, as a reference, or in a CDATA section."""
        found = ""
        for each in text:
            kind = self.below(12)
            escaped = {"&": "&amp;", "<": "&lt;", ">": "&gt;"}.get(each, each)
            spelled = {0: f"&#{ord(each)};", 1: f"&#x{ord(each):x};", 2: f"<![CDATA[{each}]]>", 3: escaped + "<!-- c -->"}
            found += spelled.get(kind, escaped)
        return found

    def nothing(self):
        """What says nothing in content."""
        return self.one("", "", "", " ", "\n", "<!-- c -->", "<?p i?>", "<!---->", "<?p?>", "\r\n", "\t")

    def attributes(self):
        found = ""
        for name in self.chance.sample(["k", "p:k", "l", "xml:lang", "id"], self.below(3)):
            found += self.one(" ", "\n", "  ") + name + self.one("=", " = ") + self.one('"v"', "'v'", '""', "'&#65;&lt;'", '"a > b"', '"\n"')
        return found

    def spell(self, tree, around=""):
        """A document's part, below an element with a default namespace; p stands for the namespace u."""
        if isinstance(tree, str):
            return self.characters(tree)
        (uri, local), children = tree
        prefixed = uri == "u" and self.likely(0.5)
        declared = "" if prefixed or uri == around else f' xmlns="{uri}"'
        name, below = (f"p:{local}", around) if prefixed else (local, uri)
        start = f"<{name}{declared}{self.attributes()}{self.one('', '', ' ')}"
        inner = "".join(self.nothing() + self.spell(child, below) for child in children) + self.nothing()
        return f"{start}/>" if not inner else f"{start}>{inner}</{name}{self.one('', '', ' ')}>"

    def text(self, tree):
        """A document that spells a tree."""
        front = self.one("", "", '<?xml version="1.0"?>', "<?xml version='1.0' encoding='UTF-8' standalone='yes'?>\n", "\ufeff", "<!DOCTYPE a>", '<!DOCTYPE a SYSTEM "s">', "<!-- c -->", "\n")
        spelled = self.spell(tree)
        begins = len(spelled) - len(spelled.lstrip("<"))
        name_end = next(place for place, each in enumerate(spelled) if each in " \n>/" and place > begins)
        return front + spelled[:name_end] + ' xmlns:p="u"' + spelled[name_end:] + self.one("", "", "\n", "<!-- c -->", "<?p i?>")
