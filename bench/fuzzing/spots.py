"""The rules, named bodies and branches of a grown stylesheet, and that stylesheet with one of them marked."""
import re

from grow import SheetGrower

# What a marked place puts out, and a schema of all results that hold no mark within an element w.
MARK = '<k:m xmlns:k="urn:mark"/>'
UNMARKED = b'namespace k = "urn:mark" start = element w { any* } any = text | element * - k:m { any* }'
TEMPLATE = re.compile(r"(<\w+:template ([^>]*)>)(.*?)(</\w+:template>)", re.DOTALL)
BRANCH = re.compile(r"<\w+:(?:if|when) [^>]*>|<\w+:otherwise>(?!</)")
DROPPED = ("<xsl:attribute", "<xsl:copy-of", "<xsl:text> ")


class SpotSheetGrower(SheetGrower):
    """Grows stylesheets in which each rule has one pattern and no name, and nothing is read that isn't there afterwards."""

    def pattern(self):
        found = super().pattern().split("|")[0].strip()
        return "*" if re.match(r"@|comment|processing", found) else found

    def instruction(self, depth, calls):
        found = super().instruction(depth, calls)
        return "<c/>" if found.startswith(DROPPED) else found

    def template(self, named, later):
        return f'<xsl:template name="{named}">{self.body(2, later)}</xsl:template>' if named else super().template("", later)


def within_root(found, body):
    """A template with a body, which stands in an element w where the rule is one of the root."""
    front, words, _, back = found.groups()
    return front + (f"<w>{body}</w>" if re.search(r'match="/"', words) else body) + back


def places(text):
    """The spots of a stylesheet: the words that tell of each, and the place behind which its body begins."""
    templates = list(TEMPLATE.finditer(text))
    bodies = [[each for each in templates if ("match=" in each.group(2)) == is_rule] for is_rule in (True, False)]
    for kind, found in zip(("rule", "named"), bodies):
        for number, template in enumerate(found, 1):
            yield f"{kind} {number}", template.start(3)
    inside = [branch.end() for template in sum(bodies, []) for branch in BRANCH.finditer(text, template.start(3), template.end(3))]
    for number, place in enumerate(inside, 1):
        yield f"branch {number}", place


def marked(text, place):
    """The stylesheet with a mark at the place, each of its results within an element w."""
    text = TEMPLATE.sub(lambda found: within_root(found, found.group(3)), text[:place] + MARK + text[place:])
    prefix = re.match(r".*?<(\w+):(?:stylesheet|transform)", text, re.DOTALL).group(1)
    root = f'<{prefix}:template match="/" priority="-99"><w><{prefix}:apply-templates/></w></{prefix}:template>'
    begin = next(TEMPLATE.finditer(text)).start()
    return text[:begin] + root + text[begin:]
