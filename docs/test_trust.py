#!/usr/bin/env python3
"""Tests of docs/definitions.py on small made-up files, and of docs/trust.py on the repository."""
import os
import re
import tempfile
import unittest
from pathlib import Path
from unittest import mock

os.chdir(Path(__file__).parents[1])

import definitions
import trust

SHAPES = """-- Shapes.
use Rattle.std.specs.Prelude.{◌≡◌, ℕ, suc, List, []}

-- a shape
pub data Shape : Type 0 where
  dot : Shape
  -- with its side
  square : ℕ → Shape

pub data Colour : Type 0 where
  red green : Colour

abbrev pub side : Shape → ℕ
side dot = 0
side (square n) = n

abbrev pub is_dot : Shape → Type 0
is_dot s = s ≡ dot

-- a record whose head takes two lines
pub record Drawn (s : Shape)
    (at : ℕ) : Type 0 where
  pub place : at ≡ side s -- behind it a comment
  pub again : place ≡ place

pub record Told (s : Shape) : Type 0 where
  pub is_dot : is_dot s
  pub same : is_dot ≡ is_dot

pub record Named (side : ℕ) : Type 0 where
  pub long : side ≡ 1
"""

LISTS = """-- Lists of shapes.
use Rattle.std.specs.Prelude.{ℕ, ◌+◌, if◌then◌else◌}
use Rattle.low.specs.Shapes.{Shape, dot as point, Drawn, Colour, green}
use Rattle.low.specs.Shapes as shapes
pub use Rattle.low.specs.Shapes.{is_dot}
use Rattle.low.specs.declared.limits.TheConstants.{MOST}

module _ (first : Shape) (f : ℕ →
    ℕ) where
  -- the same again
  abbrev pub again : Shape
  again = first

  abbrev mutual
    pub even : ℕ → ℕ
    even n = odd n

    pub odd : ℕ → ℕ
    odd n = f MOST

  pub record Both : Type 0 where
    pub one : Drawn first 0

  abbrev pub neither : ℕ
  neither = 0

abbrev pub by_kind : Shape → ℕ
by_kind s = elim s [ point ↦ 0 | shapes.square neither ↦ neither ]

abbrev pub by_colour : Colour → ℕ
by_colour green = 0
by_colour shapes.red = 1

abbrev pub bound : ℕ → ℕ
bound even = (λ odd. odd + even) (let neither = 1 in neither)

abbrev pub helped : ℕ → ℕ
helped n = by_kind n
  where
    by_kind : ℕ → ℕ
    by_kind m = m
"""

USER = """use Rattle.high.specs.Lists.{is_dot, Both as Two}
use Rattle.high.specs.Lists as lists

abbrev pub reexported : Type 0
reexported = is_dot

abbrev pub renamed : Type 0
renamed = Two

abbrev pub by_alias : Type 0
by_alias = record { even = lists.odd }

abbrev pub unknown : Type 0
unknown = nowhere
"""


class MadeUp(unittest.TestCase):
    """What words of made-up files rest on."""

    def setUp(self):
        folder = tempfile.TemporaryDirectory()
        self.addCleanup(folder.cleanup)
        for name, text in {"low/specs/Shapes": SHAPES, "high/specs/Lists": LISTS, "high/specs/User": USER}.items():
            file = Path(folder.name, name + ".antt")
            file.parent.mkdir(parents=True, exist_ok=True)
            file.write_text(text)
        patch = mock.patch.object(definitions, "CRATES", Path(folder.name))
        patch.start()
        self.addCleanup(patch.stop)
        for cached in (definitions.module_of, definitions.cited):
            cached.cache_clear()
            self.addCleanup(cached.cache_clear)

    def rests_on(self, module, word):
        """The titles of the definitions on which a word rests, but for its own, and the names of library and code."""
        found = definitions.reach([definitions.module_of(module).meaning(word)])[1:]
        return {one.title if isinstance(one, definitions.Definition) else one.name for one in found}

    def lines(self, module, word):
        return len(definitions.module_of(module).meaning(word).lines)

    def test_a_record_whose_head_takes_two_lines(self):
        self.assertEqual(self.rests_on("low.specs.Shapes", "Drawn"), {"Shape", "side", "ℕ", "◌≡◌"})
        self.assertEqual(self.lines("low.specs.Shapes", "Drawn"), 4)

    def test_a_word_that_is_a_field_too(self):
        self.assertIn("is_dot", self.rests_on("low.specs.Shapes", "Told"))

    def test_a_parameter_of_a_record_is_no_citation(self):
        self.assertEqual(self.rests_on("low.specs.Shapes", "Named"), {"ℕ", "◌≡◌"})

    def test_lines_are_without_comments(self):
        self.assertEqual(self.lines("low.specs.Shapes", "Shape"), 3)
        self.assertEqual(self.lines("low.specs.Shapes", "side"), 3)

    def test_constructors_mean_their_type(self):
        self.assertEqual(self.rests_on("low.specs.Shapes", "side"), {"Shape", "ℕ"})
        self.assertEqual(definitions.module_of("low.specs.Shapes").meaning("square").title, "Shape")

    def test_a_definition_with_the_parameters_of_its_module(self):
        self.assertEqual(self.rests_on("high.specs.Lists", "again"), {"module _", "Shape", "ℕ"})
        self.assertEqual(self.lines("high.specs.Lists", "again"), 2)
        found = definitions.reach([definitions.module_of("high.specs.Lists").meaning("again")])
        self.assertEqual([len(one.lines) for one in found[:2]], [2, 2])
        self.assertEqual(self.rests_on("high.specs.Lists", "Both"), {"module _", "Shape", "Drawn", "side", "ℕ", "◌≡◌"})

    def test_mutual_definitions_count_one_by_one(self):
        self.assertEqual(self.rests_on("high.specs.Lists", "even"), {"module _", "Shape", "odd", "ℕ", "MOST"})
        self.assertEqual(self.rests_on("high.specs.Lists", "odd"), {"module _", "Shape", "ℕ", "MOST"})
        self.assertEqual(self.lines("high.specs.Lists", "odd"), 2)

    def test_patterns_bind_but_for_constructors(self):
        self.assertEqual(self.rests_on("high.specs.Lists", "by_kind"), {"Shape", "ℕ"})
        self.assertEqual(self.rests_on("high.specs.Lists", "bound"), {"ℕ", "◌+◌"})

    def test_constructors_on_one_line(self):
        self.assertEqual(self.rests_on("high.specs.Lists", "by_colour"), {"Colour", "ℕ"})

    def test_definitions_behind_where_are_of_the_whole(self):
        self.assertEqual(self.rests_on("high.specs.Lists", "helped"), {"ℕ"})
        self.assertEqual(self.lines("high.specs.Lists", "helped"), 5)

    def test_names_that_are_handed_on_or_have_another_name(self):
        self.assertEqual(self.rests_on("high.specs.User", "reexported"), {"is_dot", "Shape", "ℕ", "◌≡◌"})
        self.assertLess({"Both", "module _"}, self.rests_on("high.specs.User", "renamed"))
        self.assertLess({"odd", "module _"}, self.rests_on("high.specs.User", "by_alias"))
        self.assertNotIn("even", self.rests_on("high.specs.User", "by_alias"))

    def test_a_word_that_means_nothing(self):
        with self.assertRaisesRegex(ValueError, "User.antt: what does nowhere mean"):
            self.rests_on("high.specs.User", "unknown")

    def test_a_clause_of_code(self):
        scope = definitions.Scope("ghost use Rattle.low.specs.Shapes.{side};\nfn side_of() {}")
        found = definitions.cited_by_clause("(n : Length) → n ≡ side_of result → side n", scope)
        self.assertEqual([one.title for one in found], ["side"])


class Repository(unittest.TestCase):
    """What the clauses of the theorem rest on, and the pages."""

    @classmethod
    def setUpClass(cls):
        cls.found = trust.clauses()

    def titles(self, clause):
        return {f"{one.module.replace('.specs.', '.')}.{one.title}" for one in self.found[clause].definitions}

    def test_every_definition_is_read(self):
        for file in Path("crates").glob("*/specs/**/*.antt"):
            if file.name != "Lib.antt":
                name = ".".join([file.parts[1], *file.with_suffix("").parts[2:]])
                for definition in definitions.module_of(name).definitions:
                    definitions.cited(definition)

    def test_safe(self):
        scopes = "TagMeans scope_within bound_in binding_of IsLawfulBinding Expands".split()
        self.assertLess({f"tc_model.XmlTextScopes.{name}" for name in scopes}, self.titles("safe"))

    def test_headline(self):
        self.assertLess({"tc_rows.Derivations.ArePlain", "tc_model.TreesApart.is_text"}, self.titles("headline"))
        self.assertFalse({"tc_rows.Derivations.HedgeFrom", "tc_rows.Derivations.AreExact"} & self.titles("headline"))

    def test_the_pieces_of_safe_are_the_clause(self):
        rows = trust.PAGE.read_text().split("\n`safe` | in words\n")[1].split("\n\n")[0]
        clause = re.search(r"    ensures safe \{(.*?)\}\n", Path(trust.CODE[0]).read_text(), re.S)[1]
        self.assertEqual(" → ".join(re.findall(r"^`(.*?)` \| ", rows, re.M)), " ".join(clause.split()))

    def test_each_clause_stands_in_the_line_of_its_call(self):
        rows = dict(row.split(": ") for row in trust.sums(self.found))
        told = {(call, clause): sums for call, cells in rows.items() for clause, sums in re.findall(r"(?:(\w+) )?(\d+/\d+)", cells)}
        self.assertEqual(len(told), len(self.found))
        for call, clause, name in (("check", "safe", "check.safe"), ("typecheck", "safe", "safe"), ("law_of_proofs", "", "law_of_proofs")):
            one = self.found[name]
            self.assertEqual(told[call, clause], f"{one.lines()}/{len(one.modules())}")

    def test_the_page_is_as_it_is_written(self):
        self.assertEqual(trust.page(trust.PAGE.read_text(), self.found), trust.PAGE.read_text())

    def test_the_sums_of_readme_are_as_they_are_written(self):
        self.assertEqual(trust.readme(trust.README.read_text(), self.found), trust.README.read_text())


if __name__ == "__main__":
    unittest.main()
