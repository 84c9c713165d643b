#!/usr/bin/env python3
"""A plain verifier of certificates, written from docs/CERTIFICATES.md alone.

verify.py IN OUT SHEET CERT   prints what `typecheck verify` prints for texts that it accepts, with its status

It reads the same schemas, in compact syntax and by operands `dtd:ROOT:NAME`, and the same stylesheets, but doesn't look for
what is refused in them, nor for limits.
"""
import sys
from pathlib import Path

sys.path.insert(0, str(Path(__file__).resolve().parent / "verifier"))

from dtds import operand  # noqa: E402
from rows import Machine  # noqa: E402
from rules import ACCEPTED, Verifier  # noqa: E402


def main():
    sys.setrecursionlimit(20000)
    source, target, sheet, certificate = sys.argv[1:]
    machine = Machine(operand(source), operand(target), Path(sheet).read_bytes())
    answer = Verifier(machine).answer(Path(certificate).read_bytes())
    print(answer)
    sys.exit(0 if answer == ACCEPTED else 1)


main()
