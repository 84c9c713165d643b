#!/usr/bin/env python3
"""Changes certificates, and compares what `typecheck` says of each with a plain verifier, that of verify.py.

mutations.py PROGRAM [SAMPLE]   SAMPLE is the greatest number of changes of one kind to one text (300)

The certificates are those of four safe triples, in both versions: a small one, the article of examples/, the same with the
declarations of elements beside this, and a report of make_triple.py. Changed is each byte, to some others or to none; each
line is dropped, doubled, and exchanged with another, with the counts as they were and repaired; each number of the data is
changed, each row and set dropped or doubled with a number changed, and the whole written again in its order. Of each text:

- `verify` prints what the plain verifier prints, and `upgrade` the version 2 text of the plain reader's data or the line
  that it refuses;
- with no more lines than the certificate it is accepted only where it has the same data: as that of `prove` is the least;
- for triples that are nearly the same and not safe it isn't accepted.
"""
import random
import shutil
import subprocess
import sys
import tempfile
from pathlib import Path

TOP = Path(__file__).resolve().parent.parent
sys.path.insert(0, str(TOP / "bench" / "verifier"))

from closure import Unsafe, proved  # noqa: E402
from dtds import Dtd, word_and_bytes  # noqa: E402
from rows import Machine  # noqa: E402
from rules import ACCEPTED, Verifier  # noqa: E402
from text import Certificate, Malformed, hedge_line, pairs_line, read, tree_line, write  # noqa: E402

VERSIONS = (1, 2)
HEAD = '<xsl:stylesheet version="1.0" xmlns:xsl="http://www.w3.org/1999/XSL/Transform">'
BYTES = b"0129,>:- \nmtTh"


def sheet(body):
    rules = f'<xsl:template match="/"><r><xsl:apply-templates select="a/b"/></r></xsl:template><xsl:template match="b">{body}</xsl:template>'
    return f"{HEAD}{rules}</xsl:stylesheet>".encode()


SMALL = (b"element a { element b { empty }* }", b"element r { element x { empty }* }", sheet("<x/>"))
NOT_SAFE = [
    (SMALL[0], b"element r { element x { empty }+ }", SMALL[2]),
    (SMALL[0], b"element r { element x { empty }? }", SMALL[2]),
    (SMALL[0], b"element r { element y { empty }* }", SMALL[2]),
    (SMALL[0], b"element r { element x { empty }, element x { empty }* }", SMALL[2]),
    (SMALL[0], b"element s { element x { empty }* }", SMALL[2]),
    (SMALL[0], SMALL[1], sheet("<y/>")),
    (SMALL[0], SMALL[1], sheet("<x/><r/>")),
    (SMALL[0], SMALL[1], sheet("<x><x/></x>")),
    (b"element a { text & element b { empty }* }", SMALL[1], SMALL[2].replace(b"a/b", b"a/node()")),
]


def article(name):
    place = TOP / "examples" / "article"
    return tuple((place / file).read_bytes() for file in ("article.rnc", "page.rnc", name))


def report(work):
    subprocess.run([sys.executable, TOP / "bench" / "make_triple.py", "report", work, "3", "2", "2"], check=True)
    return tuple((work / file).read_bytes() for file in "IOS")


def changed_bytes(text):
    for place, old in enumerate(text):
        yield text[:place] + text[place + 1 :]
        for new in {*BYTES, old ^ 1} - {old}:
            yield text[:place] + bytes([new]) + text[place + 1 :]


def repaired(lines):
    """The lines with counts that agree with them, where their heads stand in their places."""
    counts = {b"outputs": b"m", b"trees": b"tT", b"hedges": b"hH"}
    fixed = []
    for line in lines:
        word = line.split(b" ")[0]
        if word in counts:
            line = b"%s %d" % (word, sum(len(each.split(b" ")[0]) == 1 and each[:1] in counts[word] for each in lines))
        fixed.append(line)
    return fixed


def changed_lines(text):
    lines = text.split(b"\n")[:-1]
    for place in range(len(lines)):
        yield lines[:place] + lines[place + 1 :]
        yield lines[:place] + lines[place : place + 1] + lines[place:]
        for other in range(place + 1, len(lines)):
            swapped = list(lines)
            swapped[place], swapped[other] = lines[other], lines[place]
            yield swapped


def of_lines(text):
    for lines in changed_lines(text):
        for each in (lines, repaired(lines)):
            yield b"".join(line + b"\n" for line in each)


def other_rows(row, sets):
    """A row with each of its numbers changed, or each flag."""
    yield (1 - row[0], *row[1:])
    yield (row[0], 1 - row[1], *row[2:])
    for place in range(len(row[2])):
        yield (*row[:2], row[2][:place] + row[2][place + 1 :], *row[3:])
    yield (*row[:2], tuple(sorted({*row[2], max(row[2], default=0) + 1})), *row[3:])
    for place in range(len(row[3])):
        yield (*row[:3], row[3][:place] + ((row[3][place] + 1) % sets,) + row[3][place + 1 :], row[4])
    for place in range(len(row[4])):
        yield (*row[:4], row[4][:place] + ((row[4][place] + 1) % 3,) + row[4][place + 1 :])


def other_data(data):
    """The data with a row or a set dropped, a row changed, and a changed row added."""
    for place in range(len(data.outputs)):
        yield data._replace(outputs=data.outputs[:place] + data.outputs[place + 1 :])
        for pair in range(len(data.outputs[place])):
            fewer = data.outputs[place][:pair] + data.outputs[place][pair + 1 :]
            yield data._replace(outputs=data.outputs[:place] + [fewer] + data.outputs[place + 1 :])
    for kind in ("trees", "hedges"):
        rows = getattr(data, kind)
        for place, row in enumerate(rows):
            yield data._replace(**{kind: rows[:place] + rows[place + 1 :]})
            for other in other_rows(row, len(data.outputs)):
                yield data._replace(**{kind: rows[:place] + [other] + rows[place + 1 :]})
                yield data._replace(**{kind: [*rows, other]})


def in_order(data):
    """The data with each kind of its lines in order, once each; the numbers of sets stay."""
    trees = sorted(set(data.trees), key=tree_line)
    hedges = sorted(set(data.hedges), key=hedge_line)
    return Certificate(sorted(set(data.outputs), key=pairs_line), trees, hedges)


class Runner:
    """Runs the program on the texts of a triple and a certificate, in a directory."""

    def __init__(self, program, work, texts):
        self.program, self.work = program, work
        self.work.mkdir(exist_ok=True)
        self.words = []
        for name, text in zip("IOS", texts):
            word, written = word_and_bytes(text, name)
            (work / name).write_bytes(written)
            self.words.append(word)

    def run(self, *words):
        done = subprocess.run([self.program, *words], cwd=self.work, stdout=subprocess.PIPE, check=False)
        return done.returncode, done.stdout

    def certificate(self, text):
        (self.work / "C").write_bytes(text)

    def verify(self):
        return self.run("verify", *self.words, "C")

    def upgrade(self):
        return self.run("upgrade", "C")


def expected_upgrade(text):
    try:
        return 0, write(read(text), 2)
    except Malformed as fault:
        return 1, f"{fault}\n".encode()


def expected_verify(verifier, text):
    answer = verifier.answer(text)
    return (0 if answer == ACCEPTED else 1), f"{answer}\n".encode()


def sampled(texts, most, chance):
    texts = list(dict.fromkeys(texts))
    return texts if len(texts) <= most else chance.sample(texts, most)


def mutants(text, data, version, most, chance):
    yield from sampled(changed_bytes(text), most, chance)
    yield from sampled(of_lines(text), most, chance)
    yield from sampled((write(in_order(other), version) for other in other_data(data)), most, chance)


def agree(runner, text, seen, wanted):
    if seen != wanted:
        refuse(runner, text, f"{seen}, and by the plain verifier {wanted}")


def refuse(runner, text, why):
    (runner.work / "differs").write_bytes(text)
    sys.exit(f"{runner.work}/differs: {why}")


def verified(runner, verifier, text, accepts):
    """Whether `verify` accepts a text, which it does only where it may, and says what the plain verifier says."""
    runner.certificate(text)
    seen = runner.verify()
    agree(runner, text, seen, expected_verify(verifier, text))
    if seen[0] == 0 and not accepts(text):
        refuse(runner, text, "accepted")
    return seen[0] == 0


def upgraded(runner, text):
    """Whether `upgrade` takes a text, which it answers as the plain reader does."""
    runner.certificate(text)
    seen = runner.upgrade()
    agree(runner, text, seen, expected_upgrade(text))
    return seen[0] == 0


def tally(name, answers):
    answers = list(answers)
    print(f"{name:32}{len(answers):8} texts{sum(answers):8} taken", flush=True)


def try_triple(name, program, work, texts, neighbours, most, chance):
    """All changes of both versions of a triple's certificate."""
    runner, machine = Runner(program, work / name, texts), Machine(*texts)
    verifier, data = Verifier(machine), proved(machine)
    proof = runner.run("prove", *runner.words)
    agree(runner, proof[1], proof, (0, write(data, 2)))
    for version in VERSIONS:
        text = write(data, version)
        changes = list(mutants(text, data, version, most, chance))

        def may_accept(other):
            return text.count(b"\n") < other.count(b"\n") or read(other) == data

        if not verified(runner, verifier, text, may_accept):
            refuse(runner, text, "the certificate isn't accepted")
        tally(f"{name} version {version}: verify", (verified(runner, verifier, each, may_accept) for each in changes))
        tally(f"{name} version {version}: upgrade", (upgraded(runner, each) for each in changes))
        for number, neighbour in enumerate(neighbours, 1):
            near = Runner(program, work / f"{name}{number}", neighbour)
            judge = Verifier(not_safe(neighbour))
            few = [text, *sampled(changes, most, chance)]
            tally(f"  not safe, {number}", (verified(near, judge, each, lambda _: False) for each in few))


def not_safe(texts):
    """The machine of a triple that isn't safe."""
    machine = Machine(*texts)
    try:
        proved(machine)
    except Unsafe:
        return machine
    sys.exit(f"safe: {texts}")


def main():
    program, most = str(Path(sys.argv[1]).resolve()), int((sys.argv[2:] or ["300"])[0])
    sys.setrecursionlimit(20000)
    work, chance = Path(tempfile.mkdtemp()), random.Random(1)
    try_triple("small", program, work, SMALL, NOT_SAFE, most, chance)
    source, target, made = article("mended.xsl")
    alone = source, target.replace(b"element body { block+ }", b"element body { block }"), made
    try_triple("article", program, work, (source, target, made), [article("page.xsl"), alone], most, chance)
    declared = Dtd("article", (TOP / "bench" / "article.dtd").read_bytes())
    near = [(declared, *alone[1:]), (declared._replace(root="section"), target, made)]
    try_triple("declarations", program, work, (declared, target, made), near, most, chance)
    try_triple("report", program, work, report(work / "made"), [], most, chance)
    shutil.rmtree(work)


if __name__ == "__main__":
    main()
