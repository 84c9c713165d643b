"""The least certificate of two schemas and a stylesheet: the rows of all live trees and lists of trees."""
from text import Certificate, hedge_line, pairs_line, tree_line


class Unsafe(Exception):
    """Some row is admitted and doesn't pass."""


class TooMany(Exception):
    """There are more rows of one kind than asked for."""


def closed(machine, most):
    """All rows that come from the empty row and a live text by appends and wraps: those of trees, and those of lists; or
    `TooMany`."""
    hedges, trees = {machine.empty_row(): None}, {}
    if machine.text_is_live():
        trees[machine.text_row()] = None
    old_hedges = old_trees = 0
    while (old_hedges, old_trees) != (len(hedges), len(trees)):
        listed_hedges, listed_trees = list(hedges), list(trees)
        for place, row in enumerate(listed_hedges):
            if place >= old_hedges:
                trees.update((machine.wrap(symbol, row), None) for symbol in range(len(machine.fresh)))
            new_trees = listed_trees[0 if place >= old_hedges else old_trees :]
            hedges.update((machine.append(row, tree), None) for tree in new_trees)
        trees.pop(None, None)
        hedges.pop(None, None)
        if most < max(len(trees), len(hedges)):
            raise TooMany
        old_hedges, old_trees = len(listed_hedges), len(listed_trees)
    return list(trees), list(hedges)


def proved(machine, most=4000):
    """The data of the least certificate; or `Unsafe`, or `TooMany` for more rows of one kind."""
    trees, hedges = closed(machine, most)
    if any(machine.admitted(tree) and not machine.passes(tree) for tree in trees):
        raise Unsafe
    used = {number: machine.sets.pairs(number) for row in trees + hedges for number in row[3]}
    ordered = sorted(used, key=lambda number: pairs_line(used[number]))
    place = {number: place for place, number in enumerate(ordered)}

    def lines(rows, line):
        return sorted(((*row[:3], tuple(place[each] for each in row[3]), row[4]) for row in rows), key=line)

    return Certificate([used[number] for number in ordered], lines(trees, tree_line), lines(hedges, hedge_line))
