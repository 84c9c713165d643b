"""Changes of texts at random: by bytes, tokens and phrases, cut, joined, and with parts of another text."""
import re

TOKEN = re.compile(rb"[A-Za-z0-9_.\-]+|\s+|[^\sA-Za-z0-9]")
OPEN, CLOSE = b"({[<", b")}]>"
BYTES = [0, 9, 10, 13, 32, 38, 39, 34, 45, 58, 60, 62, 33, 63, 47, 91, 93, 0x7F, 0x80, 0xBF, 0xC0, 0xED, 0xEF, 0xF4, 0xFF]
WORDS = [
    b"<", b">", b"/>", b"</", b"&", b"&amp;", b"&#0;", b"&#xD800;", b"&#x10FFFF;", b"&#x110000;", b"&#99999999999999999999;", b"]]>", b"<!--", b"-->", b"--",
    b"<![CDATA[", b"<?", b"?>", b"<!DOCTYPE", b"<!ELEMENT", b"xmlns", b"xmlns:p", b"xml:", b"xml", b":", b"=", b"'", b'"', b"\r\n", b"\r", b"\t", b"\n",
    b"\xef\xbb\xbf", b"\xc2\x85", b"\xe2\x80\xa8", b"\xef\xbf\xbe", b"\xef\xbf\xbf", b"\xed\xa0\x80", b"\xf0\x90\x80\x80", b"\xf4\x90\x80\x80", b"\xc3\xa9", b"\xe0\xa4\x85", b"\xcc\x80", b"\xc2\xb7",
    b"{", b"}", b"(", b")", b"[", b"]", b"|", b",", b"&=", b"|=", b"*", b"+", b"?", b"-", b"~", b"\\", b"\\x{41}", b">>", b"#", b"##", b"'''", b'"""',
    b"element", b"attribute", b"text", b"empty", b"notAllowed", b"list", b"mixed", b"start", b"grammar", b"include", b"external", b"parent", b"div", b"default", b"namespace", b"datatypes", b"inherit", b"string", b"token",
    b"xsl:", b"match", b"select", b"test", b"mode", b"name", b"priority", b"version", b"1.0", b"//", b"/", b"..", b".", b"@", b"::", b"child::", b"and", b"or", b"not(", b"true()", b"node()", b"text()", b"comment()", b"$", b"0", b"1", b"01", b"4294967296", b"18446744073709551616",
    b"#PCDATA", b"EMPTY", b"ANY", b"%", b"%e;", b"<!ATTLIST", b"<!ENTITY", b"<![INCLUDE[", b"t", b"T", b"m", b"h", b"end", b" ",
]  # fmt: skip


def phrase(chance, text):
    """The bounds of a bracketed part of a text, or of a line where there is none."""
    opens = [place for place, byte in enumerate(text) if byte in OPEN]
    if not opens:
        return line(chance, text)
    begin = chance.choice(opens)
    pair, depth = OPEN.index(text[begin]), 0
    for end in range(begin, len(text)):
        depth += (text[end] == OPEN[pair]) - (text[end] == CLOSE[pair])
        if depth == 0:
            return begin, end + 1
    return begin, len(text)


def line(chance, text):
    lines = text.split(b"\n")
    place = chance.randrange(len(lines))
    begin = sum(len(each) + 1 for each in lines[:place])
    return begin, min(begin + len(lines[place]) + 1, len(text))


def token(chance, text):
    """The bounds of a token."""
    matches = list(TOKEN.finditer(text))
    return chance.choice(matches).span() if matches else (0, 0)


def change_byte(chance, text, _):
    place = chance.randrange(len(text) + 1)
    byte = bytes([chance.choice(BYTES) if chance.random() < 0.7 else chance.randrange(256)])
    return text[:place] + chance.choice([byte, b""]) + text[place + chance.randrange(2) :]


def change_token(chance, text, other):
    begin, end = token(chance, text)
    first, last = token(chance, other)
    new = chance.choice([b"", chance.choice(WORDS), other[first:last], text[begin:end] * 2, text[begin:end] + chance.choice(WORDS)])
    return text[:begin] + new + text[end:]


def change_phrase(chance, text, other):
    begin, end = phrase(chance, text)
    first, last = phrase(chance, other)
    new = chance.choice([b"", text[begin:end] * 2, other[first:last], text[begin + 1 : max(begin + 1, end - 1)], text[begin:end] + other[first:last]])
    return text[:begin] + new + text[end:]


def exchange(chance, text, _):
    """Two phrases in each other's places."""
    spans = sorted([phrase(chance, text), phrase(chance, text)])
    (a, b), (c, d) = spans
    return text if c < b else text[:a] + text[c:d] + text[b:c] + text[a:b] + text[d:]


def cut(chance, text, _):
    place = chance.randrange(len(text) + 1)
    return chance.choice([text[:place], text[:place], text[place:]])


def join(chance, text, other):
    return text[: chance.randrange(len(text) + 1)] + other[chance.randrange(len(other) + 1) :]


def repeat(chance, text, _):
    """A token or a phrase many times."""
    begin, end = chance.choice([token, phrase])(chance, text)
    return text[:begin] + text[begin:end] * chance.choice([3, 10, 100, 3000 if end - begin < 30 else 10]) + text[end:]


CHANGES = [change_byte] * 4 + [change_token] * 6 + [change_phrase] * 4 + [exchange] * 2 + [cut, join, repeat]


def changed(chance, text, other, most=4):
    """A text changed a few times, mostly once."""
    for _ in range(1 if chance.random() < 0.6 else chance.randrange(1, most + 1)):
        if text:
            text = chance.choice(CHANGES)(chance, text, other or b"x")
    return text[:200000]
