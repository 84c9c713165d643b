#!/usr/bin/env python3
"""Tries the program with texts at random: grown from the grammars, and real ones changed, each judged by another command.

  fuzz.py [--from N] [--share P] [--keep FOLDER] [--triples FOLDER] PROGRAM SEED COUNT [KIND..]

COUNT cases of each kind (all kinds): document, schema, declarations, sheet, certificate, triple, include, dead. The same seed
gives the same cases, from number N (1) on; a run that is ended by SIGINT or SIGTERM tells what it tried. Of each call it is
asked that its status and lines are those of README and PROFILE, that it ends within 10 seconds and 1 GB on a stack of 8 MB,
and that the same comes again; and

- documents: read where `xmllint` and expat read them, to the tree of expat, as `valid --stream` says, else refused alike;
- schemas and declarations: `valid` as the plain states of verifier/ say, as `jing` or `xmllint --dtdvalid`, in pieces too;
- stylesheets: the result of `xsltproc`, or, where it is another one, of `saxon`;
- triples: what `check` shows is valid, and its output is that of `run` and isn't valid; what it says is safe has a
  certificate that `verify` accepts, and grown documents have valid results;
- `dead`: each place by `check`, `valid` and `run` of the stylesheet that puts out a mark there;
- `include` and `same`: the documents shown, and grown ones, by `valid`; each by the other;
- certificates, changed: `verify` and `upgrade` as verifier/ says.

A folder of --triples has files I, O and S of a further one. P is the share (0.05) of safe triples from which 200 documents
are grown and not 4. Each difference is printed with its smallest texts, which are put into the folder of --keep
(differences). No program is started for a text: each, with its words, waits where it begins and is called again and again
(fuzzing/forks.c), 128 cases go on together, `jing` waits in one process (fuzzing/Jing.java), and `xmllint` and `xsltproc` are
called by their libraries; one answer in 64 is asked for again, of the program started anew. It wants cc and the Debian packages
default-jdk-headless, jing, libsaxonhe-java, libxml2 and libxslt1.1.
"""
import os
import random
import resource
import signal
import sys
import tempfile
import time
from argparse import ArgumentParser
from pathlib import Path

TOP = Path(__file__).resolve().parent.parent
sys.path[:0] = [str(TOP / "bench" / "fuzzing"), str(TOP / "bench" / "verifier")]

from calls import EVERY, FOLDERS, STACK, Caller  # noqa: E402
from cases import KINDS, Cases  # noqa: E402
from documents import GAVE_UP  # noqa: E402
from judge import Judges  # noqa: E402
from shrink import shrunk  # noqa: E402

SHOWN = 2


class Campaign:
    """Tries cases, and keeps what differs."""

    def __init__(self, words, caller, cases, judges):
        self.words, self.caller, self.cases, self.judges = words, caller, cases, judges
        self.found = {}

    def judged(self, kind, texts):
        """What differs in a case."""
        try:
            return (yield from self.judges.judge(kind, texts))
        except RecursionError:
            GAVE_UP["RecursionError"] += 1
            return None

    def case(self, kind, number):
        """The texts of a case, and what differs."""
        texts = yield from self.cases.make(kind, random.Random(f"{self.words.seed} {kind} {number}"))
        return texts, (yield from self.judged(kind, texts))

    def tell(self, kind, number, texts, differs):
        """Tells what differs in a case, and keeps its smallest texts."""
        self.found.setdefault((kind, differs), []).append(number)
        if len(self.found[kind, differs]) > SHOWN:
            return
        print(f"{kind} {number}: {differs}", flush=True)
        self.caller.every = 1
        smallest = shrunk(texts, lambda other: self.caller.together([self.judged(kind, other)]) == [differs])
        self.caller.every = EVERY
        folder = self.words.keep / f"{kind}-{self.words.seed}-{number}"
        folder.mkdir(parents=True, exist_ok=True)
        (folder / "differs").write_text(differs + "\n")
        for name, text in smallest.items():
            (folder / name).write_bytes(text)
            print(f"  {name}: {text[:600]!r}", flush=True)

    def run(self, kind):
        begun, calls = time.monotonic(), self.caller.calls
        end = self.words.first + self.words.count
        for first in range(self.words.first, end, FOLDERS):
            numbers = range(first, min(first + FOLDERS, end))
            for number, (texts, differs) in zip(numbers, self.caller.together([self.case(kind, number) for number in numbers])):
                self.judges.count(f"cases of the kind {kind}")
                if differs is not None:
                    self.tell(kind, number, texts, differs)
        taken = time.monotonic() - begun
        print(f"{kind}: {self.words.count} cases, {self.caller.calls - calls} calls, {taken:.0f} s", flush=True)

    def summary(self):
        for what, count in self.judges.told.items():
            print(f"{count:9} {what}")
        for fault, count in GAVE_UP.items():
            print(f"{count:9} given up by the plain readers, {fault}")
        for (kind, differs), numbers in self.found.items():
            print(f"DIFFERENCE, {len(numbers)} times, {kind}: {differs} ({', '.join(map(str, numbers[:5]))})")
        return 1 if self.found else 0


def read_words():
    parser = ArgumentParser()
    parser.add_argument("--from", dest="first", type=int, default=1)
    parser.add_argument("--share", type=float, default=0.05)
    parser.add_argument("--keep", type=Path, default=Path("differences"))
    parser.add_argument("--triples", type=Path, action="append", default=[])
    parser.add_argument("program", type=Path)
    parser.add_argument("seed")
    parser.add_argument("count", type=int)
    parser.add_argument("kinds", nargs="*", default=KINDS)
    return parser.parse_args()


def main():
    words = read_words()
    sys.setrecursionlimit(20000)
    signal.signal(signal.SIGTERM, signal.default_int_handler)
    resource.setrlimit(resource.RLIMIT_STACK, (STACK, resource.RLIM_INFINITY))
    words.keep = words.keep.resolve()
    program, folders = words.program.resolve(), [folder.resolve() for folder in words.triples]
    with tempfile.TemporaryDirectory(dir="/dev/shm" if os.access("/dev/shm", os.W_OK) else None) as work:
        os.chdir(work)
        caller = Caller(str(program))
        campaign = Campaign(words, caller, Cases(caller, TOP, folders), Judges(caller, words.share))
        print(f"seed {words.seed}, cases {words.first} to {words.first + words.count - 1}", flush=True)
        try:
            for kind in words.kinds:
                campaign.run(kind)
        except KeyboardInterrupt:
            print("ended from outside")
        caller.end()
    sys.exit(campaign.summary())


main()
