#!/usr/bin/env python3
"""Writes a generated document of about so many bytes to the standard output.

  make_document.py attributes BYTES   elements with attributes, texts, references and prefixed namespaces
  make_document.py article BYTES      an article, valid for article.rnc
  make_document.py tag BYTES          one tag with many attributes
  make_document.py scopes BYTES       many prefixes, a third of them declared at the root and one at each child

The same words give the same bytes.
"""
import random
import sys

WORDS = "the of and a to in is was that for it with as on be at by this had not are but from or have an they which one you were her all she there would their".split()
MARKUP = {
    "attributes": ["&lt;", "&amp;", "&#233;", "\u00e9", "\u4e2d", "<!-- note -->", "<![CDATA[a < b]]>"],
    "article": ["&amp;", "\u00e9"],
}


def words(chance, kind, count):
    """So many words, a few of them references or other markup."""
    chosen = chance.choices(WORDS, k=count)
    if chance.random() < 0.2:
        chosen[chance.randrange(count)] = chance.choice(MARKUP[kind])
    return " ".join(chosen)


def entry(chance, number):
    """An element with attributes, namespaces and texts."""
    lines = [f'  <entry id="e{number}" rank="{chance.randrange(1000)}" x:note="{words(chance, "article", 3)}">\n']
    lines.append(f'    <title xml:lang="en">{words(chance, "attributes", 6)}</title>\n')
    for _ in range(chance.randrange(1, 5)):
        lines.append(f'    <x:part kind="p{chance.randrange(5)}"><p xmlns="urn:text">{words(chance, "attributes", 25)} <em>{words(chance, "attributes", 2)}</em> {words(chance, "attributes", 20)}</p></x:part>\n')
    lines.append(f'    <size width="{chance.randrange(100)}" height="{chance.randrange(100)}"/>\n  </entry>\n')
    return "".join(lines)


def inline(chance, count):
    """Words, some of them stressed."""
    text = words(chance, "article", count)
    if chance.random() < 0.5:
        text += f" <emph>{words(chance, 'article', 2)}</emph> {words(chance, 'article', 5)}"
    return text


def section(chance, number):
    """A section of paragraphs and lists."""
    lines = [f'  <section id="s{number}">\n    <title>{inline(chance, 4)}</title>\n']
    for _ in range(chance.randrange(2, 9)):
        if chance.random() < 0.3:
            lines.append("    <itemlist>\n")
            for _ in range(chance.randrange(1, 6)):
                lines.append(f"      <item><para>{inline(chance, 12)}</para></item>\n")
            lines.append("    </itemlist>\n")
        else:
            lines.append(f"    <para>{inline(chance, 40)}</para>\n")
    lines.append("  </section>\n")
    return "".join(lines)


def declared(_, number):
    """A child that declares a prefix."""
    return f'<e xmlns:q{number}="u"/>'


def root_of_scopes(size):
    """A start tag that declares as many prefixes as half of so many children do."""
    return "<a" + "".join(f' xmlns:p{number}="u"' for number in range(size // 60)) + ">"


def main():
    kind, size = sys.argv[1], int(sys.argv[2])
    chance = random.Random(1)
    if kind == "attributes":
        front, back, part = '<?xml version="1.0" encoding="UTF-8"?>\n<entries xmlns="urn:entries" xmlns:x="urn:extra">\n', "</entries>\n", entry
    elif kind == "tag":
        front, back, part = "<a", "/>\n", lambda _, number: f' k{number}=""'
    elif kind == "scopes":
        front, back, part = root_of_scopes(size), "</a>\n", declared
    else:
        front, back, part = "<article>\n  <title>On words</title>\n", "</article>\n", section
    out = sys.stdout.buffer
    out.write(front.encode())
    written, number = len(front), 0
    while written < size:
        piece = part(chance, number).encode()
        out.write(piece)
        written, number = written + len(piece), number + 1
    out.write(back.encode())


main()
