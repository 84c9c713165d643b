#!/usr/bin/env python3
"""Compares two documents in normal form, without attributes: adjacent texts joined, texts of white space alone dropped.

  compare.py ONE OTHER

It prints how many nodes they have, or where they first differ, with status 1.
"""
import sys
import xml.etree.ElementTree as tree

WHITE = " \t\r\n"


def listed(path):
    """The starts, texts and ends of a document in normal form."""
    root = tree.parse(path).getroot()
    waits = [(root, False)]
    while waits:
        node, done = waits.pop()
        if isinstance(node, str):
            if node.strip(WHITE):
                yield node
        elif done:
            yield ("end", node.tag)
        else:
            yield ("start", node.tag)
            waits.append((node, True))
            inner = [(node.text or "", False)]
            for kid in node:
                inner.append((kid, False))
                inner.append((kid.tail or "", False))
            waits.extend(reversed(inner))


def main():
    count = 0
    others = listed(sys.argv[2])
    for one in listed(sys.argv[1]):
        other = next(others, None)
        if one != other:
            sys.exit(f"node {count} differs: {one!r} and {other!r}")
        count += 1
    if next(others, None) is not None:
        sys.exit(f"the second document goes on after {count} nodes")
    print(f"the same {count} starts, texts and ends")


main()
