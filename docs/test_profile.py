#!/usr/bin/env python3
"""Tests that the tables and the usage line of docs/PROFILE.md, and the statuses of README.md, are those of the code, and that
PROFILE tells of the texts of bench/hostile.sh that may take more."""
import os
import re
import unittest
from collections import defaultdict
from functools import cache
from pathlib import Path

os.chdir(Path(__file__).parents[1])

PROFILE, README = Path("docs/PROFILE.md").read_text(), Path("README.md").read_text()
REASONS = Path("crates/tc_base/src/reasons.rt").read_text()
READING_FAULTS = Path("crates/tc_read/src/faults.rt").read_text()
ANSWERS = Path("crates/tc_answer/src/answer.rt").read_text()
WORDS = Path("crates/tc_answer/src/limits.rt").read_text()
STATUSES = Path("crates/tc_answer/src/status.rt").read_text()
LIMITS = [Path("crates", crate, "src/limits.rt").read_text() for crate in ("tc_base", "tc_decide")]
# the crates that refuse texts, some together, with how the title of their section in PROFILE begins
SECTIONS = {
    "tc_xml": "Documents",
    "tc_stream tc_tags": "Documents",
    "tc_rnc": "Schemas",
    "tc_dtd": "Declarations of elements as schemas",
    "tc_sheet": "Stylesheets",
    "tc_path": "Selects, values, patterns and tests",
}
# the variants of Status, each with a word of what README says it means
MEANINGS = dict(Yes="yes", No="no", Usage="command", Refused="form", Limit="limit")
MEANINGS |= dict(ReadFault="read", WriteFault="written", NoMemory="memory")


def tables(text, head):
    """The rows of cells of each table in a text that has this head, with bars around its rows or without."""
    found = re.findall(rf"^(?:\| )?{re.escape(head)}(?: \|)?\n[-:|]+\n((?:.* \| .*\n)+)", text, re.M)
    return [[row.removeprefix("| ").removesuffix(" |").split(" | ") for row in rows.splitlines()] for rows in found]


def section(title):
    """What stands in PROFILE below the title that begins so."""
    return next(part for part in PROFILE.split("\n## ")[1:] if part.startswith(title))


def words_of(rows):
    return [re.fullmatch("`(.*)`", row[0])[1] for row in rows]


def refused_in(title):
    """The words in the first table of refusals of a section, and those that it takes over from documents."""
    taken = re.search(r"What is refused, beside (.*) as in documents:", section(title))
    return sorted(words_of(tables(section(title), "word | refused")[0]) + re.findall("`(.*?)`", taken[1] if taken else ""))


@cache
def code():
    """The text of each file of the code, tests left out."""
    files = [file for file in Path("crates").glob("*/src/**/*.rt") if not file.parts[1].startswith("tc_tests")]
    return {file: file.read_text() for file in sorted(files)}


def numbers_of(text):
    """The constants of a text with their numbers, also of those that are another constant of it."""
    numbers = {name: int(number) for name, number in re.findall(r"const (\w+): \w+ = ([\d_]+);", text)}
    return numbers | {name: numbers[other] for name, other in re.findall(r"const (\w+): \w+ = ([A-Z_]+) as \w+;", text)}


def printed_limits():
    """The pairs of a limit's word and what the code gives as its number: a constant, or `most` for that of `--limit`; the
    `_` of a pattern is none."""
    found = re.findall(r'over\(alloc, "(\w+)", (\w+)', ANSWERS)
    for text in code().values():
        found += [(kind.lower(), number) for kind, number in re.findall(r"(?:Limit|RowCount)::(\w+)\)?,\s+([A-Za-z]\w*)\)", text)]
    return sorted(set(found))


class Refusals(unittest.TestCase):
    def test_each_word_stands_where_it_can_come(self):
        words = dict(re.findall(r'Why::(\w+) => "(.*)"', REASONS))
        used = defaultdict(set)
        for file, text in code().items():
            if file.parts[1] != "tc_base":
                together = next((crates for crates in SECTIONS if file.parts[1] in crates.split()), file.parts[1])
                used[together] |= {words[name] for name in re.findall(r"\bWhy::(\w+)", text)}
        used = {crates: sorted(found) for crates, found in used.items() if found}
        self.assertEqual(used, {crates: refused_in(title) for crates, title in SECTIONS.items()})

    def test_each_word_stands_in_one_table(self):
        first = [words_of(tables(section(title), "word | refused")[0]) for title in dict.fromkeys(SECTIONS.values())]
        self.assertEqual(sorted(sum(first, [])), sorted(re.findall(r'Why::\w+ => "(.*)"', REASONS)))

    def test_words_that_stand_alone(self):
        alone = set(re.findall(r'\("([\w-]+)", ""\)', READING_FAULTS))
        told = re.search(r"at PLACE`\. (.*?) stand there without `unsupported`", PROFILE)[1]
        self.assertEqual(set(re.findall("`(.*?)`", told)) | {"malformed"}, alone)
        of_schemas = words_of(tables(section("Schemas"), "word | refused")[1])
        self.assertEqual({*of_schemas, "call-loop", "too-deep", "malformed"}, alone)
        self.assertEqual(len(tables(PROFILE, "word | refused")), len(set(SECTIONS.values())) + 1)


class Limits(unittest.TestCase):
    def setUp(self):
        (self.rows,) = tables(PROFILE, "what | number | answer")
        self.numbers = numbers_of("".join(LIMITS))

    def test_kinds_and_numbers(self):
        told = re.findall(r"`limit (\w+) (\w+)`", "".join(row[2] for row in self.rows))
        self.assertEqual({(kind, str(self.numbers.get(number, "N"))) for kind, number in printed_limits()}, set(told))
        others = {"GREATEST_LIMIT", "DEEPEST_NESTING"}
        self.assertEqual({number for _, number in printed_limits()} | others, {*self.numbers, "most"})

    def test_both_columns_have_one_number(self):
        for what, number, answer in self.rows:
            with self.subTest(what):
                told = dict.fromkeys(re.findall(r"`limit \w+ (\w+)`", answer))
                if answer == "`refused NAME too-deep at PLACE`":
                    told = [self.numbers["DEEPEST_NESTING"]]
                elif "N" in told:
                    self.assertTrue(number.endswith(", or N of `--limit`"))
                    number, told = number.removesuffix(", or N of `--limit`"), [self.numbers["MOST_ROWS"]]
                self.assertEqual(number, "; ".join(f"{int(one):,}" for one in told))

    def test_numbers_of_words(self):
        most = numbers_of(WORDS)
        limit, piece, demo = self.numbers["GREATEST_LIMIT"], most["LARGEST_PIECE"], most["MOST_DEMO"]
        words = f"N of `--limit` is from 1 to {limit:,}, N of `--stream` from 1 to {piece:,}, and N of `demo` from 1 to {demo}, in"
        self.assertIn(words, section("Words"))


class Strangers(unittest.TestCase):
    def test_texts_that_cost_more_than_their_length(self):
        (rows,) = tables(section("Files of strangers"), "command | text | takes | why")
        told = {(re.match("`(.*?)`", text)[1].replace("\\|", "|"), command.split("`")[1]) for command, text, _, _ in rows}
        tried = re.findall(r"^beyond '.*?' '(.*?)' (valid --stream|\w+) ", Path("bench/hostile.sh").read_text(), re.M)
        self.assertEqual(told, set(tried))


class Calls(unittest.TestCase):
    def test_the_usage_line(self):
        (line,) = re.findall(r'b"(usage: .*)\\n"', ANSWERS)
        self.assertIn(f"\n```\n{line}\n```\n", section("Words"))

    def test_statuses_of_readme(self):
        (commands,) = tables(README, "arguments | what it does | 0, yes | 1, no")
        yes, no = (" ".join(row[column] for row in commands) for column in (2, 3))
        rows = [["0", "yes", yes], ["1", "no", no], *tables(README, "status | means | prints")[0]]
        variants = re.findall(r"^    (\w+),$", STATUSES, re.M)
        self.assertEqual([number for number, _, _ in rows], [str(number) for number in range(len(variants))])
        self.assertEqual([variant for variant, row in zip(variants, rows) if MEANINGS[variant] in row[1]], variants)
        words = re.findall(r'Status::(\w+),\s+(?:text: Text::Fixed\(\s*)?(?:&\[\s*)?b?"([\w-]+)', ANSWERS)
        for status, word in words:
            with self.subTest(word):
                self.assertIn(word, re.findall(r"[\w-]+", rows[variants.index(status)][2]))


if __name__ == "__main__":
    unittest.main()
