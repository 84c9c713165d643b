#!/usr/bin/env python3
"""Tests of docs/contracts.py on small made-up files."""
import os
import unittest
from pathlib import Path

os.chdir(Path(__file__).parents[1])

import contracts

WIDE = "    ensures wide { " + "a" * 100 + " }"
TEXT = f"""//! A file.

/// A trait.
pub trait Store {{
    /// Reads.
    fn read(&mut self) -> bool
        ensures gives {{ a }}

        // Nothing is lost.
        ensures same {{ b }}

    /// Has no clause.
    fn count(&self) -> u32;
}}

pub(crate) fn long(
    a: u8,
    b: u8,
) -> u8
    requires one {{ x
        → y }}
    requires two {{ x }}
    ensures three {{ z }}
    ensures four {{ z }}
    ensures five {{ z }}
{{
    // ensures nothing
    a
}}

fn wide<T>() -> u8
where
    T: Store,
{WIDE}
{{
    let a = 0;
    a
}}
"""


class MadeUp(unittest.TestCase):
    def setUp(self):
        self.found = {one.name: one for one in contracts.functions(TEXT)}

    def test_functions_without_clauses_do_not_count(self):
        self.assertEqual(list(self.found), ["read", "long", "wide"])

    def test_clauses_of_a_trait_go_past_comments(self):
        self.assertEqual(len(self.found["read"].clauses), 2)

    def test_a_clause_goes_over_lines_and_a_body_has_none(self):
        self.assertEqual([len(clause) for clause in self.found["long"].clauses], [2, 1, 1, 1, 1])

    def test_the_widest_line(self):
        self.assertEqual([one.widest for one in self.found.values()], [27, 23, len(WIDE)])

    def test_the_line_of_a_crate(self):
        cells = ["x", 3, 1, 33, len(WIDE), 1, 33, 5, 8, 0]
        self.assertEqual(contracts.row("x", list(self.found.values())), cells)
        self.assertEqual(contracts.row("x", list(self.found.values()) * 5)[-1], 40)

    def test_clauses_that_stand_five_times(self):
        found = contracts.functions(TEXT) * 5
        self.assertIn(("requires one { x → y }", 5), contracts.repeated(found))
        self.assertEqual(contracts.repeated(found[:3]), [])

    def test_the_repository_has_counts(self):
        *crates, everything = contracts.rows()
        self.assertEqual(everything[1], sum(cells[1] for cells in crates))
        self.assertEqual(everything[8], sum(cells[8] for cells in crates))


if __name__ == "__main__":
    unittest.main()
