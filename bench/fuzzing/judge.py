"""What each answer is compared with: another command of the program, or another program.

A judge takes a caller and the texts of a case, by the names of their files, and is a generator, which asks for answers (calls.py)
and gives what differs, or None.
"""
import random
import re
import subprocess
import zlib
from pathlib import Path

import documents
import libraries
import spots
from dtds import Dtd
from rows import Machine
from rules import Verifier
from text import Malformed, read, write

ANY = b"element * { (text | any)* }"
COPY = (
    b'<xsl:stylesheet version="1.0" xmlns:xsl="http://www.w3.org/1999/XSL/Transform">'
    b'<xsl:template match="*"><xsl:copy><xsl:apply-templates/></xsl:copy></xsl:template></xsl:stylesheet>'
)
MOST_DOCUMENTS = 200
JING = ("jing",)
SAXON = ["java", "-cp", "/usr/share/java/Saxon-HE.jar", "net.sf.saxon.Transform", "-s:plain.xml", "-xsl:S"]
ATTRIBUTE = re.compile(rb"\battribute\s[^{}#\"']*\{[^{}#]*\}")


def chance_of(texts):
    """A source of chance that the texts of a case determine."""
    return random.Random(zlib.crc32(b"\0".join(texts[name] for name in sorted(texts))))


def mark_at(document, told):
    """The character at the place of a malformed document, or None where something else is told."""
    place = re.fullmatch(rb"refused D malformed at ([0-9]+)\n", told)
    return place and document[int(place.group(1)) :][:1].decode("latin-1")


def nodes(document):
    """The number of nodes of a document."""
    waits, count = [documents.tree_of(document)], 0
    while waits:
        tree = waits.pop()
        count += 1
        waits += [] if isinstance(tree, str) else tree[1]
    return count


def trimmed(trees):
    """Trees without the line feeds at their front and end, which aren't told from those that `xsltproc` puts there."""
    found = list(trees)
    for place, strip in ((0, str.lstrip), (-1, str.rstrip)):
        if found and isinstance(found[place], str):
            found[place] = strip(found[place], "\n")
    return documents.normal(found)


def pieces_of(operand, texts):
    """The words that have a document read in pieces."""
    size = chance_of(texts).choice([1, 1, 2, 3, 4, 5, 7, 16, 61, 1000, 65536])
    return "valid", "--stream", str(size), operand, "D"


class Jing:
    """Jing, which waits for texts in one folder after another (Jing.java)."""

    def __init__(self, top):
        jars = ":".join(f"/usr/share/java/{name}.jar" for name in ("jing", "xercesImpl", "xml-apis", "xml-resolver"))
        options = ["-XX:+UseSerialGC", "-XX:TieredStopAtLevel=1", "-Xmx300m", "-cp", jars]
        words = ["java", *options, Path(__file__).with_name("Jing.java")]
        self.process = subprocess.Popen(words, stdin=subprocess.PIPE, stdout=subprocess.PIPE, bufsize=0, cwd=top)

    def order(self, folder):
        self.process.stdin.write(bytes([folder]))

    def answer(self):
        """Whether the document in the file D is valid for the schema in J, or None where one of them isn't read."""
        return {b"v": True, b"i": False, b"u": None}[self.process.stdout.read(1)]

    def end(self):
        self.process.stdin.close()
        self.process.wait()


class Judges:
    """Judges, with the share of safe triples from which many documents are grown."""

    def __init__(self, caller, share):
        self.caller, self.share = caller, share
        self.told = {}
        caller.put_everywhere("any", b"start = any any = " + ANY)
        caller.put_everywhere("copy", COPY)
        caller.put_everywhere("empty.xml", b"<a/>")

    def count(self, what):
        """Counts a comparison that was made."""
        self.told[what] = self.told.get(what, 0) + 1

    def judge(self, kind, texts):
        """What differs in a case of a kind."""
        for name, text in texts.items():
            self.caller.put(name, text)
        return (yield from getattr(self, kind)(texts))

    # Documents.
    def document(self, texts):
        (answer, wrong), pieces, copy = yield from self.caller.answers_to(
            ("valid", "any", "D"), pieces_of("any", texts), ("run", "copy", "D")
        )
        return (
            wrong
            or self.streamed(texts["D"], pieces, answer)
            or self.well_formed(texts["D"], answer)
            or self.copied(texts["D"], answer, *copy)
        )

    def streamed(self, document, pieces, answer):
        """`valid --stream` by `valid`."""
        found, wrong = pieces
        if wrong is None and found.told not in (answer.told, b"limit tag 65536\n", b"limit names 65536\n"):
            # of a tag with wrong names and a `/` without `>` behind it one tells the first byte, the other that of the `/`
            if [mark_at(document, each.told) for each in (answer, found)] != ["<", "/"]:
                return "valid in pieces differs from valid"
            self.count("two places of a malformed tag")
        self.count("valid in pieces by valid")
        return wrong

    def well_formed(self, text, answer):
        """Reading by `xmllint` and by expat."""
        if answer.status == 3 and b" malformed at" not in answer.told:
            return None
        parsed = documents.plainly(lambda: documents.tree_of(text)) is not None
        self.count("reading by expat")
        accepted = libraries.well_formed(b"D")
        self.count("reading by xmllint")
        if (answer.status != 3) == accepted or (accepted != parsed and answer.status == 3):
            return None
        judges = "xmllint" if accepted != parsed else "xmllint and expat"
        return f"a document is {'malformed' if answer.status == 3 else 'read'}, {'well-formed' if accepted else 'not well-formed'} by {judges}"

    def copied(self, text, answer, copy, wrong):
        """The tree that is read, by its copy, against expat's; what isn't read is refused alike."""
        if answer.status == 3 or copy.status != 0:
            return wrong or (answer.status == 3 and copy.told != answer.told and "run and valid refuse a document otherwise") or None
        wanted = wrong or documents.plainly(lambda: documents.tree_of(text))
        if wrong or wanted is None:
            return wrong
        self.count("a copy by expat")
        if documents.result_tree(copy.told) != (wanted,):
            return "a copy differs from the tree that expat reads"
        return None

    # Schemas, and declarations as schemas.
    def schema(self, texts):
        return self.schema_named("A", texts, texts["A"])

    def declarations(self, texts):
        return self.schema_named("dtd:a:T", texts, Dtd("a", texts["T"]))

    def schema_named(self, operand, texts, text):
        (answer, wrong), (same, wrong_too), pieces = yield from self.caller.answers_to(
            ("valid", operand, "D"), ("same", operand, operand), pieces_of(operand, texts)
        )
        if wrong or answer.status not in (0, 1):
            return wrong or pieces[1]
        if wrong_too or same.status not in (0, 4):
            return wrong_too or "a schema isn't the same as itself"
        valid = answer.status == 0
        return (
            self.streamed(texts["D"], pieces, answer)
            or self.plainly_valid(text, texts["D"], valid)
            or (self.valid_by_lint(texts, valid) if operand != "A" else (yield from self.valid_by_jing(texts, valid)))
        )

    def plainly_valid(self, text, document, valid):
        """`valid` by the plain reader of schemas and the states of CERTIFICATES."""
        plain = documents.plainly(lambda: documents.valid_for(text).holds(documents.tree_of(document)))
        if plain is None:
            return None
        self.count("valid by the plain states")
        return None if plain == valid else f"a document is {'' if valid else 'in'}valid, by the plain states not"

    def valid_by_jing(self, texts, valid):
        """Jing, of a document without attributes, and of the schema with `empty` in the place of attributes."""
        schema = ATTRIBUTE.sub(b" empty ", texts["A"])
        if re.search(rb"attribute|##|\bxml", schema) or re.search(rb"<[^>]*[\s:](?!xmlns)[\w:]+\s*=", texts["D"]):
            return None
        self.caller.put("J", schema)
        if JING not in self.caller.waiting:
            self.caller.waiting[JING] = Jing(self.caller.top)
        (found,) = yield [JING]
        if found is None:
            return None
        self.count("valid by jing")
        return None if found == valid else f"a document is {'' if valid else 'in'}valid, by jing not"

    def valid_by_lint(self, texts, valid):
        """`xmllint --dtdvalid`, of a document without attributes."""
        if re.search(rb"<[^>]*=", texts["D"]) or b"<!DOCTYPE" in texts["D"] or b"<!ATTLIST" in texts["T"] or b"\n" in texts["D"]:
            return None
        found, complaints = libraries.valid(b"D", b"T")
        if found is None or re.search(rb"T:[0-9]+: |not determinist|already defined|Redefinition|declaration of", complaints):
            return None
        root = documents.tree_of(texts["D"])[0]
        self.count("valid by xmllint --dtdvalid")
        return None if (found and root == ("", "a")) == valid else f"a document is {'' if valid else 'in'}valid, by xmllint not"

    # Runs.
    def sheet(self, texts):
        answer, wrong = yield from self.caller.answer("run", "S", "D")
        return wrong or (self.transformed(texts, answer) if answer.status == 0 else None)

    def transformed(self, texts, answer):
        """`run` by `xsltproc`, of a document without attributes, comments and texts of white space. Patterns with `//` behind a
        step are left out: libxslt takes `*//a` to fit the document's element, and `node()//a` to fit no `a` in an element. Where
        it differs, as it adds some copied texts to others than those before them, `saxon` decides."""
        tree = documents.plainly(lambda: documents.tree_of(texts["D"]))
        if tree is None or re.search(rb"method|match\s*=\s*[\"'][^\"']*[^\"'|\s/]\s*//", texts["S"]):
            return None
        self.caller.put("plain.xml", documents.printed(tree).encode())
        other = libraries.transformed(b"S", b"plain.xml")
        wanted = other is not None and documents.plainly(lambda: documents.result_tree(other))
        if wanted is None or other is None:
            return None
        self.count("run by xsltproc")
        found = trimmed(documents.result_tree(answer.told))
        if found == trimmed(wanted):
            return None
        other = documents.plainly(lambda: documents.result_tree(subprocess.run(SAXON, stdout=subprocess.PIPE, check=True).stdout))
        self.count("run by saxon, where xsltproc differs")
        return None if other is not None and found == trimmed(other) else "run differs from xsltproc and saxon"

    # Triples.
    def triple(self, texts):
        (answer, wrong), (proof, wrong_too) = yield from self.caller.answers_to(("check", "I", "O", "S"), ("prove", "I", "O", "S"))
        if wrong or answer.status not in (0, 1):
            return wrong or ("prove differs from check" if answer.status == 3 and proof.told != answer.told else wrong_too)
        self.count("safe" if answer.status == 0 else "unsafe")
        if wrong_too:
            return wrong_too
        if answer.status == 1:
            return "prove differs from check" if proof.told != answer.told else (yield from self.shown(answer.told))
        return (yield from self.safe(texts, proof))

    def shown(self, told):
        """A counterexample by `valid` and `run`."""
        _, document, output = told.split(b"\n")[:3]
        self.caller.put("D", document.removeprefix(b"document "))
        valid, result = yield [("valid", "I", "D"), ("run", "S", "D")]
        if valid.told != b"valid\n":
            return f"the document shown is {valid.told.decode()!r} for the input"
        if output == b"output-too-large":
            return None if result.status == 4 else "an output is too large, and run gives it"
        if result.status != 0 or b"output " + result.told != output + b"\n":
            return "run gives another output than the one shown"
        self.caller.put("R", result.told)
        if (yield from self.caller.call("valid", "O", "R")).status == 0:
            return "the output shown is valid"
        self.count("counterexamples by valid and run")
        return None

    def safe(self, texts, proof):
        """A certificate by `verify`, and the results of documents by `valid`."""
        if proof.status != 0:
            return "prove differs from check" if proof.status != 4 else None
        self.caller.put("C", proof.told)
        verified, wrong = yield from self.caller.answer("verify", "I", "O", "S", "C")
        if wrong or verified.status != 0:
            return wrong or "a certificate isn't accepted"
        self.count("certificates by verify")
        for name in self.grown(texts["I"], "D", chance_of(texts)):
            result = yield from self.caller.call("run", "S", name)
            if result.status == 4:
                continue
            self.caller.put("R", result.told)
            if (yield from self.caller.call("valid", "O", "R")).status != 0:
                return "a valid document has an invalid result, of a safe triple"
            self.count("results of safe triples by valid")
        return None

    def grown(self, text, name, chance):
        """Puts documents of a schema, one after another, into a file of a name, and gives it each time."""
        plain = documents.plainly(lambda: documents.valid_for(text))
        for _ in range(MOST_DOCUMENTS if chance.random() < self.share else 4):
            nodes = chance.choice([1, 5, 20, 60])
            tree = plain and documents.plainly(lambda: plain.grow(chance, nodes))
            if tree is None:
                return
            self.caller.put(name, documents.printed(tree).encode())
            yield name

    # Dead places.
    def dead(self, texts):
        """Each spot by `check`, `valid` and `run` of the stylesheet in which it is marked."""
        answer, wrong = yield from self.caller.answer("dead", "I", "S")
        if wrong or answer.status not in (0, 1):
            return wrong
        self.caller.put("O", spots.UNMARKED)
        text, lines = texts["S"].decode(), answer.told.decode().splitlines()
        places = list(spots.places(text))
        count = sum(line.endswith(" dead") for line in lines[:-1])
        told = [line.split(" ", 2)[:2] for line in lines[:-1]]
        if lines[-1] != f"places {len(places)} dead {count}" or told != [name.split(" ") for name, _ in places]:
            return "dead tells other places"
        for line, (_, place) in zip(lines, places):
            self.caller.put("M", spots.marked(text, place).encode())
            differs = yield from self.spot(line.split(" ", 2)[2])
            if differs:
                return differs
        return None

    def spot(self, told):
        """One spot, marked in the stylesheet in the file M, and what is told of it."""
        checked = yield from self.caller.call("check", "I", "O", "M")
        if checked.status not in (0, 1):
            return None if checked.told.startswith(b"limit ") else "a marked stylesheet isn't checked"
        if b"urn:mark" in checked.told.split(b"\noutput ")[0]:
            return None  # a copied element is taken for the mark
        self.count("spots by check")
        if (told == "dead") != (checked.status == 0):
            return f"a place is {told.split(' ')[0]}, by check not"
        if not told.startswith("used <"):
            return None if told == "dead" else "a place is used by a document that isn't too large"
        document = told.removeprefix("used ").encode()
        if nodes(document) != nodes(checked.told.split(b"\n")[1].removeprefix(b"document ")):
            return "a place is used by a document that isn't a smallest one"
        self.caller.put("D", document)
        valid, result = yield [("valid", "I", "D"), ("run", "M", "D")]
        if valid.told != b"valid\n" or result.status != 0 or b"urn:mark" not in result.told:
            return "the document shown doesn't use the place"
        self.count("used places by valid and run")
        return None

    # Inclusion.
    def include(self, texts):
        (answer, wrong), other, same = yield from self.caller.answers_to(("include", "A", "B"), ("include", "B", "A"), ("same", "A", "B"))
        if wrong or answer.status not in (0, 1):
            return wrong
        if answer.status == 1:
            self.caller.put("D", answer.told.split(b"\n")[1].removeprefix(b"document "))
            first, second = yield [("valid", "A", "D"), ("valid", "B", "D")]
            self.count("not included by valid")
            if (first.told, second.told) != (b"valid\n", b"invalid\n"):
                return f"the document that is shown is {first.told.decode()!r} and {second.told.decode()!r}"
        else:
            for name in self.grown(texts["A"], "D", chance_of(texts)):
                first, second = yield [("valid", "A", name), ("valid", "B", name)]
                if first.status != 0:
                    return "a grown document is invalid"
                if second.status != 0:
                    return "a document of an included schema is invalid"
                self.count("documents of included schemas by valid")
        return (yield from self.same(answer, *other, *same))

    def same(self, answer, other, wrong, same, wrong_too):
        """`same` by `include` both ways."""
        if wrong or wrong_too or 4 in (same.status, other.status):
            return wrong or wrong_too
        self.count("same by include")
        wanted = answer.status == 0 and other.status == 0
        if (same.status == 0) != wanted:
            return "same differs from include both ways"
        if same.status == 1:
            which, document = same.told.split(b"\n")[1].split(b" ", 1)
            self.caller.put("D", document)
            first, second = yield [("valid", "A", "D"), ("valid", "B", "D")]
            wanted = (b"valid\n", b"invalid\n") if which == b"first-only" else (b"invalid\n", b"valid\n")
            if (first.told, second.told) != wanted:
                return "the document that same shows isn't valid for one schema alone"
        return None

    # Certificates.
    def certificate(self, texts):
        (answer, wrong), (upgraded, wrong_too) = yield from self.caller.answers_to(("verify", "I", "O", "S", "C"), ("upgrade", "C"))
        if wrong or answer.status not in (0, 1):
            return wrong
        if wrong_too or upgraded.status not in (0, 1):
            return wrong_too
        wanted = documents.plainly(lambda: Verifier(Machine(texts["I"], texts["O"], texts["S"])).answer(texts["C"]))
        if wanted is None:
            return None
        self.count("verify by the plain verifier")
        if wanted.encode() + b"\n" != answer.told:
            return "verify differs from the plain verifier"
        try:
            wanted = 0, write(read(texts["C"]), 2)
        except Malformed as fault:
            wanted = 1, f"{fault}\n".encode()
        return None if wanted == (upgraded.status, upgraded.told) else "upgrade differs from the plain reader"
