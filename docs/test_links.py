#!/usr/bin/env python3
"""Tests that each link of each page leads to a file that is there, and to a heading of it where it names one."""
import os
import re
import unittest
from pathlib import Path

os.chdir(Path(__file__).parents[1])

PAGES = sorted(page for pattern in ("*.md", "docs/*.md", "bench/*.md", "examples/*.md", "crates/*/*.md") for page in Path().glob(pattern))
LINK = re.compile(r"\]\(([^()\s]*)\)")


def plain(text):
    """A page without what it quotes."""
    return re.sub(r"```.*?```|`[^`\n]*`", "", text, flags=re.S)


def anchors(text):
    """How its headings are named in links."""
    heads = re.findall(r"^#+ (.*)$", text, re.M)
    return {re.sub(r"[^\w\- ]", "", head.lower()).replace(" ", "-") for head in heads}


class Links(unittest.TestCase):
    def test_each_link_leads_somewhere(self):
        for page in PAGES:
            for link in LINK.findall(plain(page.read_text())):
                path, _, anchor = link.partition("#")
                with self.subTest(page=str(page), link=link):
                    file = page.parent / path if path else page
                    self.assertTrue(link.startswith("http") or file.exists())
                    if anchor and not link.startswith("http"):
                        self.assertIn(anchor, anchors(file.read_text()))

    def test_there_are_pages(self):
        self.assertIn(Path("README.md"), PAGES)


if __name__ == "__main__":
    unittest.main()
