#!/usr/bin/env python3
"""Writes two schemas and a stylesheet, as the files I, O and S of a directory, for the benchmark of `check`.

make_triple.py FAMILY DIR [NUMBER..]

Like real ones:
  report 12 3 8     a report of sections, parts and inlines, to a page with a table of contents and an index
  above 6 2 3       the same with a rule for each part in each section, so with many ancestor states
  copies 60         a copy of a schema whose element patterns refer to three others each
  page 4 3          a file of kinds of records with fields, to a page like XHTML: many output states, many literal elements
Costly ones, within the limits:
  dense 9 44        contents that overlap: many kinds of rows, many edges
  wide 5 3 240      many entries: ancestor states by move states
  wraps 10 300 5 100 0   symbols each of its own class, and looks
  paths 900 2 6     a select of many alternatives, with predicates
  bodies 10 20000   bodies of many instructions that read nothing
  sets 59 29        many sets of pairs
  marked 9 63 45    a set of pairs for each list of at most 9 elements of two kinds in 63 modes: 65,458, of 255 states; with 64
                    modes 66,497, which are too many
"""
import os
import sys

HEAD = '<xsl:stylesheet version="1.0" xmlns:xsl="http://www.w3.org/1999/XSL/Transform">'
APPLY = "<xsl:apply-templates/>"
ROOT_OF_Y = "start = r\nr = element r { y* }\ny = element y { empty }\n"
ROOT_ALONE = "start = r\nr = element r { empty }\n"


def rule(match, body, mode=""):
    mode = f' mode="{mode}"' if mode else ""
    return f'<xsl:template match="{match}"{mode}>{body}</xsl:template>'


def choice(names):
    return " | ".join(names)


def names(count):
    return [f"x{number}" for number in range(count)]


def report(sections, parts, inlines, by_section=False):
    section_names = [f"s{k}" for k in range(1, sections + 1)]
    part_names = [f"p{j}" for j in range(1, parts + 1)]
    inline_numbers = range(1, inlines + 1)

    def inline(letter):
        items = [f"{letter}{n}" for n in inline_numbers]
        return f"inline = (text | {choice(items)})*\n" + "".join(f"{item} = element {item} {{ inline }}\n" for item in items)

    source = f"start = d\nd = element d {{ ({choice(section_names)})* }}\n"
    for section in section_names:
        head = "h" + section[1:]
        source += f"{section} = element {section} {{ {head}, ({choice(part_names)})* }}\n"
        source += f"{head} = element {head} {{ inline }}\n"
    source += "".join(f"{part} = element {part} {{ inline }}\n" for part in part_names) + inline("i")
    target = (
        "start = r\nr = element r { toc, sec* }\ntoc = element toc { li* }\nli = element li { text }\n"
        "sec = element sec { h, index?, para* }\nh = element h { inline }\nindex = element index { key+ }\n"
        "key = element key { empty }\npara = element para { inline }\n"
    ) + inline("o")
    keys = "".join(f'<xsl:if test="{part}"><key/></xsl:if>' for part in part_names)
    some_part = " or ".join(part_names)
    all_parts = "|".join(part_names)
    sheet = rule("d", f'<r><toc><xsl:apply-templates mode="toc"/></toc>{APPLY}</r>')
    for section in section_names:
        head = "h" + section[1:]
        sheet += rule(section, f'<li><xsl:value-of select="{head}"/></li>', "toc")
        sheet += rule(
            section,
            f'<sec><xsl:apply-templates select="{head}"/><xsl:if test="{some_part}"><index>{keys}</index></xsl:if>'
            f'<xsl:apply-templates select="{all_parts}"/></sec>',
        )
        sheet += rule(head, f"<h>{APPLY}</h>")
    matches = [f"{s}/{p}" for s in section_names for p in part_names] if by_section else part_names
    sheet += "".join(rule(match, f"<para>{APPLY}</para>") for match in matches)
    sheet += "".join(rule(f"i{n}", f"<o{n}>{APPLY}</o{n}>") for n in inline_numbers)
    return source, target, sheet


def above(sections, parts, inlines):
    return report(sections, parts, inlines, by_section=True)


def copies(count):
    def wrapped(number):
        return (number - 1) % count + 1

    schema = "start = e1\n"
    for k in range(1, count + 1):
        schema += f"e{k} = element e{k} {{ e{wrapped(2 * k)}?, e{wrapped(2 * k + 1)}*, e{wrapped(k + 1)}? }}\n"
    return schema, schema, rule("*", f"<xsl:copy>{APPLY}</xsl:copy>")


INLINES = ["em", "strong", "code", "b", "span"]
HEADINGS = ["h1", "h2"]
PAGE = {
    "html": "head, body",
    "head": "(meta | link | style)*, title, (meta | link | style)*",
    "title": "text",
    "meta": "empty",
    "link": "empty",
    "style": "text",
    "body": "block*",
    "p": "inline*",
    "division": "flow*",
    "pre": "(text | a | br | em | strong | code | span)*",
    "hr": "empty",
    "br": "empty",
    "blockquote": "block*",
    "a": f"(text | br | {choice(INLINES)})*",
    "ul": "li+",
    "li": "flow*",
    "table": "caption?, col*, thead?, (tbody+ | tr+)",
    "caption": "inline*",
    "col": "empty",
    "thead": "tr+",
    "tbody": "tr+",
    "tr": "(th | td)+",
    "th": "flow*",
    "td": "flow*",
} | {name: "inline*" for name in INLINES + HEADINGS}


def page_schema():
    blocks = choice(["p", "division", "ul", "pre", "hr", "blockquote", "table", *HEADINGS])
    schema = f"start = html\ninline = text | a | br | {choice(INLINES)}\nblock = {blocks}\nflow = inline | block\n"
    return schema + "".join(
        f"{name} = element {'div' if name == 'division' else name} {{ {content} }}\n" for name, content in PAGE.items()
    )


def page(records, fields):
    kinds = fields + 3
    source = (
        f"start = settings\nsettings = element settings {{ title?, note*, ({choice(f'r{r}' for r in range(records))})* }}\n"
        "title = element title { text }\nnote = element note { (text | b | l)* }\n"
        "b = element b { text }\nl = element l { text }\n"
    )
    for r in range(records):
        parts = [f"f{r}.{f}" + ["", "?", "*", "+"][(r + f) % 4] for f in range(fields)]
        note = ", note?" if r % 2 else ""
        source += f"r{r} = element r{r} {{ title, {', '.join(parts)}{note} }}\n"
        for f in range(fields):
            content = "text" if f % 3 else "(text | b)*" if f % 2 else "note*"
            source += f"f{r}.{f} = element k{(r * fields + f) % kinds} {{ {content} }}\n"
    head = "<tr><th>kind</th><th>name</th><th>value</th></tr>"
    sheet = rule(
        "/settings",
        '<html><head><title><xsl:value-of select="title"/></title></head><body><h1><xsl:value-of select="title"/></h1>'
        f'<xsl:apply-templates select="note"/><div><table><thead>{head}</thead>'
        "<tbody><tr><td>all</td><td/><td/></tr></tbody></table></div>"
        f'<xsl:apply-templates select="{"|".join(f"r{r}" for r in range(records))}"/></body></html>',
    )
    sheet += rule("note", f"<p>{APPLY}</p>") + rule("b", f"<strong>{APPLY}</strong>") + rule("l", f"<code>{APPLY}</code>")
    for r in range(records):
        here = sorted({(r * fields + f) % kinds for f in range(fields)})
        rows = "".join(
            f'<tr><th>{k}</th><td><span><b><xsl:value-of select="k{k}"/></b></span></td>'
            f'<td><xsl:if test="k{k}/b"><em>marked</em></xsl:if></td></tr>'
            for k in here
        )
        fields_of = "".join(f'<xsl:apply-templates select="k{k}" mode="m{r % 3}"/>' for k in here)
        sheet += rule(
            f"r{r}",
            f'<div><h2><xsl:value-of select="title"/></h2><table><tbody>{rows}</tbody></table>'
            f'<xsl:if test="note"><blockquote><xsl:apply-templates select="note"/></blockquote></xsl:if>{fields_of}</div>',
        )
    field = '<div><p><xsl:apply-templates select="b"/></p><xsl:apply-templates select="note"/></div>'
    sheet += "".join(rule(f"k{k}", field, f"m{m}") for m in range(min(3, records)) for k in range(kinds))
    return source, page_schema(), sheet


def nested(count):
    return f"start = d\nd = element d {{ x* }}\nx = element ({choice(names(count))}) {{ x* }}\n"


def tests(count):
    return "".join(f'<xsl:if test="{name}"><y/></xsl:if>' for name in names(count))


def dense(kinds, times):
    source = f"start = r\nr = element r {{ ({choice(f'e{j}' for j in range(kinds) for _ in range(times))})* }}\n"
    for j in range(kinds):
        others = choice(f"x{t}" for t in range(kinds) if t != j)
        source += f"e{j} = element a {{ l{j}* }}\nl{j} = element ({others}) {{ empty }}\n"
    return source, ROOT_ALONE, rule("/", "<r/>")


def wide(count, ancestors, moves):
    selects = "".join(f'<xsl:apply-templates select="{x}"/><xsl:apply-templates select="*/{x}"/>' for x in names(count))
    sheet = rule("/", f"<r>{selects}</r>")
    sheet += "".join(rule(f"x{a}//x{(a + 1) % count}", "<y/>") for a in range(ancestors))
    sheet += rule("x0/x0/x0", "".join(f'<xsl:apply-templates select="x{j % count}" mode="m{j}"/>' for j in range(moves)))
    sheet += "".join(rule("*", "<y/>", f"m{move}") for move in range(moves)) + rule("*", "<y/>")
    return nested(count), ROOT_OF_Y, sheet


def wraps(looks, count, ancestors, moves, predicates):
    sheet = rule("/", f"<r>{APPLY}</r>") + rule("d", tests(looks))
    sheet += "".join(rule(f"x{a}//x{a + ancestors}", "<y/>") for a in range(ancestors))
    sheet += "".join(rule(f"x{p}[x{p}]", "<y/>") for p in range(predicates))
    sheet += "".join(rule(name, "<y/>") for name in names(count))
    sheet += rule("e", "".join(f'<xsl:apply-templates select="x{j % count}/nosuch"/>' for j in range(moves)))
    return nested(count), ROOT_OF_Y, sheet


def paths(alternatives, steps, predicates):
    def step(t, u):
        predicate = f"[x{t % predicates}]" if predicates else ""
        return f"x{(t * (u + 1) + u) % alternatives}{predicate}"

    six = names(6)
    source = f"start = d\nd = element d {{ {' , '.join(name + '?' for name in six)} }}\n"
    source += "".join(f"{name} = element {name} {{ empty }}\n" for name in six)
    select = " | ".join("/".join(step(t, u) for u in range(steps)) for t in range(alternatives))
    return source, ROOT_ALONE, rule("/", "<r/>") + rule("*", f'<xsl:apply-templates select="{select}"/>')


def bodies(count, length):
    body = tests(count) + "<y/>" * length + APPLY
    sheet = rule("/", f"<r>{APPLY}</r>") + rule("d", body) + "".join(rule(name, body) for name in names(count))
    return nested(count), ROOT_OF_Y, sheet


def sets(count, modes):
    some = choice(names(count))
    source = f"start = d\nd = element d {{ ({some}), ({some})? }}\n"
    source += "".join(f"{name} = element {name} {{ empty }}\n" for name in names(count))
    target = f"start = r\nr = element r {{ ({choice(f'c{k}' for k in range(count))})? }}\n"
    for k in range(count):
        others = choice(f"y{j}" for j in range(count) if j != k)
        target += f"c{k} = element c{k} {{ n{k}* }}\nn{k} = element ({others}) {{ empty }}\n"
    sheet = rule("/", "<r/>")
    for mode in range(modes):
        sheet += "".join(rule(f"x{a}", f"<y{a}/><y{(a + mode + 1) % count}/>", f"m{mode}") for a in range(count))
    return source, target, sheet + rule("q", "".join(f'<xsl:apply-templates mode="m{mode}"/>' for mode in range(modes)))


def marked(length, modes, others):
    """Whether each of the names, and of so many others, occurs is told by the sets of pairs: 2 + 4 + .. of lists, those of
    the trees behind the first place and that of `d` in each mode, and that of nothing."""
    places = range(1, length + 1)
    source = f"start = d\nd = element d {{ {', '.join(f'(x{i} | y{i})' for i in places)} }}\n"
    source += "".join(f"{name}{i} = element {name}{i} {{ empty }}\n" for i in places for name in "xy")
    told = [f"{name}{i}" for i in places for name in "xy"] + [f"m{m}" for m in range(modes)] + [f"o{k}" for k in range(others)]
    target = f"start = r\nr = element r {{ empty | {choice(f'n{name}*' for name in told)} }}\n"
    target += "".join(f"n{name} = element * - {name} {{ empty }}\n" for name in told)
    sheet = rule("/", "<r/>") + "".join(rule("*", f"<xsl:copy/><m{m}/>", f"m{m}") for m in range(modes))
    return source, target, sheet


FAMILIES = (report, above, copies, page, dense, wide, wraps, paths, bodies, sets, marked)


def main():
    family, place, *numbers = sys.argv[1:]
    make = {each.__name__: each for each in FAMILIES}[family]
    source, target, sheet = make(*map(int, numbers))
    os.makedirs(place, exist_ok=True)
    for name, text in (("I", source), ("O", target), ("S", f"{HEAD}{sheet}</xsl:stylesheet>")):
        with open(os.path.join(place, name), "w") as file:
            file.write(text)


if __name__ == "__main__":
    main()
