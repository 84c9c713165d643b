"""Cases at random: texts that are grown, real ones, and both changed."""
import subprocess
import sys
from collections.abc import Generator
from pathlib import Path

import documents
from change import changed
from dtds import Dtd
from grow import NAMES, DeclarationsGrower, DocumentGrower, Grower, SchemaGrower, SheetGrower
from spots import SpotSheetGrower

FAMILIES = ["report 3 2 2", "above 2 1 1", "copies 4", "dense 3 5", "wide 2 1 4", "wraps 2 4 2 4 0", "paths 6 2 2", "bodies 2 30", "sets 5 3"]
KINDS = ["document", "schema", "declarations", "sheet", "certificate", "triple", "include", "dead"]


def triple_in(folder):
    return tuple((folder / name).read_bytes() for name in "IOS")


def real_triples(top, folders):
    """Small triples of each family of make_triple.py, the article's, and those of further folders with files I, O and S."""
    for family in FAMILIES:
        name, *numbers = family.split(" ")
        subprocess.run([sys.executable, top / "bench" / "make_triple.py", name, "made", *numbers], check=True, stdout=subprocess.DEVNULL)
        yield triple_in(Path("made"))
    article = top / "examples" / "article"
    for sheet in ("page.xsl", "mended.xsl"):
        yield tuple((article / name).read_bytes() for name in ("article.rnc", "page.rnc", sheet))
    yield from map(triple_in, folders)


def real_texts(top, triples):
    """The real texts, by their suffixes: those of examples/ and bench/, and of triples."""
    files = [file for folder in ("examples/first", "examples/article", "bench") for file in sorted((top / folder).iterdir())]
    found = {suffix: [file.read_bytes() for file in files if file.suffix == suffix] for suffix in (".rnc", ".dtd", ".xml", ".xsl", ".cert")}
    for source, target, sheet in triples:
        found[".rnc"] += [source, target]
        found[".xsl"].append(sheet)
    return found


class Cases:
    """Makes the texts of cases: each by a generator, which may ask for answers (calls.py)."""

    def __init__(self, caller, top, folders):
        self.caller, self.triples = caller, list(real_triples(top, folders))
        self.real = real_texts(top, self.triples)

    def make(self, kind, chance):
        made = getattr(self, kind)(Grower(chance))
        return (yield from made) if isinstance(made, Generator) else made

    def maybe_changed(self, grower, text, suffix, share):
        if not grower.likely(share):
            return text
        return changed(grower.chance, text, grower.one(*self.real[suffix]))

    def text(self, grower, suffix, grow, share=0.5):
        """A grown text, or a real one, changed with a chance."""
        text = grow().encode("utf-8", "surrogatepass") if grower.likely(0.7) else grower.one(*self.real[suffix])
        return self.maybe_changed(grower, text, suffix, share)

    def document(self, grower):
        maker = DocumentGrower(grower.chance)
        return {"D": self.text(grower, ".xml", lambda: maker.text(maker.tree(4)), 0.7)}

    def sheet(self, grower):
        maker = DocumentGrower(grower.chance)
        text = self.text(grower, ".xsl", SheetGrower(grower.chance).text)
        plain = [maker.text(maker.tree(4)).encode(), documents.printed(maker.tree(4)).encode()]
        return {"S": text, "D": grower.one(*plain, *self.real[".xml"][:2])}

    def schema(self, grower):
        text = self.text(grower, ".rnc", SchemaGrower(grower.chance).text)
        self.caller.put("A", text)
        return {"A": text, "D": (yield from self.near(grower, "A", text))}

    def declarations(self, grower):
        text = self.text(grower, ".dtd", DeclarationsGrower(grower.chance).text)
        self.caller.put("T", text)
        return {"T": text, "D": (yield from self.near(grower, "dtd:a:T", Dtd("a", text)))}

    def near(self, grower, operand, schema):
        """A document that is valid or nearly so, where the schema is accepted, and any other one."""
        nodes, tree = grower.one(3, 8, 30), None
        if (yield from self.caller.call("valid", operand, "empty.xml")).status in (0, 1):
            tree = documents.plainly(lambda: documents.valid_for(schema).grow(grower.chance, nodes))
        if tree is None or grower.likely(0.1):
            tree = DocumentGrower(grower.chance).tree(3)
        elif grower.likely(0.5):
            tree = other_tree(grower, tree)
        return documents.printed(tree).encode()

    def triple(self, grower):
        if grower.likely(0.1):
            source, target, sheet = grower.one(*self.triples)
        else:
            schemas = SchemaGrower(grower.chance, 0.002)
            source, target = schemas.text().encode(), schemas.text(grower.likely(0.7)).encode()
            sheet = SheetGrower(grower.chance, 0.002).text().encode()
        texts = {"I": source, "O": target, "S": sheet}
        if grower.likely(0.2):
            name = grower.one("I", "O", "S")
            texts[name] = self.maybe_changed(grower, texts[name], ".xsl" if name == "S" else ".rnc", 1)
        return texts

    def dead(self, grower):
        source = SchemaGrower(grower.chance, 0.002).text().encode()
        return {"I": source, "S": SpotSheetGrower(grower.chance, 0.002).text().encode()}

    def certificate(self, grower):
        """The certificate of a small triple, mostly changed."""
        for _ in range(30):
            schemas = SchemaGrower(grower.chance, 0)
            texts = {"I": schemas.text().encode(), "O": schemas.text(True).encode(), "S": SheetGrower(grower.chance, 0).text().encode()}
            for name, text in texts.items():
                self.caller.put(name, text)
            proof = yield from self.caller.call("prove", "--limit", "40", "I", "O", "S")
            if proof.status == 0 and len(proof.told) < 4000:
                break
        else:
            texts, proof = dict(zip("IOS", self.triples[2])), None
        text = proof.told if proof else self.real[".cert"][0]
        return {**texts, "C": self.maybe_changed(grower, text, ".cert", 0.9)}

    def include(self, grower):
        """Two schemas, mostly one and nearly the same."""
        schemas = SchemaGrower(grower.chance, 0.002)
        one = schemas.text(grower.likely(0.2)).encode()
        other = self.maybe_changed(grower, one, ".rnc", 0.9) if grower.likely(0.7) else schemas.text(grower.likely(0.5)).encode()
        return dict(zip("AB", (one, other) if grower.likely(0.5) else (other, one)))


def other_tree(grower, tree):
    """A tree with one thing changed somewhere in it."""
    name, children = tree
    inner = [place for place, child in enumerate(children) if not isinstance(child, str)]
    if inner and grower.likely(0.6):
        place = grower.one(*inner)
        return name, (*children[:place], other_tree(grower, children[place]), *children[place + 1 :])
    kind = grower.below(4)
    if kind == 0:
        return (name[0], grower.one(*NAMES)), children
    if kind == 1 and children:
        place = grower.below(len(children))
        return name, documents.normal(children[:place] + children[place + 1 :])
    if kind == 2 and children:
        return name, documents.normal(children + (grower.one(*children),))
    return name, documents.normal(children + (grower.one("t", (("", grower.one(*NAMES)), ())),))
