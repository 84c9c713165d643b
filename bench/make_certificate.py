#!/usr/bin/env python3
"""Writes a certificate's text of version 1 of about so many bytes to the standard output, for reading alone: the rows are of
no triple.

  make_certificate.py BYTES

It has as many trees as a certificate may have, each row with as many numbers as the bytes ask for and a few of them other
than in the row before.
"""
import sys

ROWS = 4000


def main():
    width = max(int(sys.argv[1]) // ROWS // 2 - 8, 1)
    numbers = [b"%d" % (place % 10) for place in range(width)]
    out = sys.stdout.buffer
    out.write(b"xslt-typecheck certificate 1\noutputs 10\nm\n")
    out.writelines(b"m %d>%d\n" % (state, state) for state in range(9))
    out.write(b"trees %d\n" % ROWS)
    for row in range(ROWS):
        numbers[row * 7 % width] = b"%d" % (row % 10)
        out.write(b"t 0 0 %d %s -\n" % (1000 + row, b",".join(numbers)))
    out.write(b"hedges 1\nh 0 0 - - -\nend\n")


main()
