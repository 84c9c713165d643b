#!/usr/bin/env python3
"""Lists the libraries that a line of crates.txt has and the crate doesn't name, in its code, definitions or proofs. Each line
lists what its crate names alone: what stands further below, the toolchain finds by itself. Run it at the top."""
import re
from pathlib import Path

CRATES, LIST = Path("crates"), Path("crates.txt")


def listed(text):
    """The libraries of each crate, by the text of crates.txt."""
    rows = [line.split("#")[0].partition(":") for line in text.splitlines()]
    return {name.strip(): libraries.split() for name, colon, libraries in rows if colon}


def names(text, library):
    """Whether a path in this text begins with a library, or a module of its definitions or proofs."""
    return re.search(rf"\bRattle\.{library}\.|(?<![\w:.]){library}::|\buse {library}\b", text) is not None


def text_of(crate):
    files = (file for part in ("src", "specs", "proofs") for file in (CRATES / crate / part).rglob("*"))
    return "\n".join(file.read_text() for file in files if file.suffix in (".rt", ".antt"))


def needless():
    found = {}
    for crate, libraries in listed(LIST.read_text()).items():
        text = text_of(crate)
        found[crate] = [library for library in libraries if not names(text, library)]
    return {crate: libraries for crate, libraries in found.items() if libraries}


if __name__ == "__main__":
    for crate, libraries in needless().items():
        print(f"{crate}:", *libraries)
