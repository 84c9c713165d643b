#!/usr/bin/env python3
"""Prints a schema that costs much.

  make_schema.py covers NAMES KEYS WINDOW CYCLE MATCHED [ALIKE]
  make_schema.py repeated ALTERNATIVES DEPTH   a choice of references in repetitions, one in another

`covers` has nearly as many cover rows as there may be, over nearly as many states. A row of a tree tells its name, one of
NAMES and one more, and which of KEYS stands alone in it; each tree matches MATCHED element patterns beside these. A row of
a list of trees tells which of the last WINDOW trees have one of the first names, and how many trees there are, up to
multiples of CYCLE. With 42 42 7 15 88 there are nearly 2,000 rows of each kind, over some 500 states. ALIKE (0) names more are
in the class of the first names and in no other, so that nothing tells them apart.
"""
import sys


def repeated(alternatives, depth):
    choice = "|".join(["x"] * alternatives)
    print(f"start = element a {{{'(' * depth}{choice}{')+' * depth}}}\nx = element x {{empty}}")


def covers(names, keys, window, cycle, matched, alike=0):
    first = "|".join([f"n{i}" for i in range((names + 1) // 2)] + [f"a{i}" for i in range(alike)])
    rules = ["start = any | window | cycle | dense"]
    rules.append("any = element * {any*}")
    rules.append(f"first = element ({first}) {{any*}}")
    rules.append("window = element window {any*, first" + ", any" * (window - 1) + "}")
    rules.append("cycle = element cycle {(any" + ", any" * (cycle - 1) + ")*}")
    rules.append("dense = element dense {(" + "|".join(f"q{i}" for i in range(matched)) + ")*}")
    for i in range(names):
        rules.append(f"n{i} = element n{i} {{any*}}")
    for i in range(keys):
        rules.append(f"p{i} = element * {{k{i}}}")
        rules.append(f"k{i} = element k{i} {{empty}}")
    for i in range(matched):
        rules.append(f"q{i} = element * {{any*}}")
    used = "|".join([f"n{i}" for i in range(names)] + [f"p{i}" for i in range(keys)])
    rules[0] += " | " + used
    print("\n".join(rules))


def main():
    {"covers": covers, "repeated": repeated}[sys.argv[1]](*map(int, sys.argv[2:]))


main()
