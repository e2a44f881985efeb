"""The links between the pages: each leads to a file of this tree, and to a heading on it."""

import re
import unittest
from pathlib import Path

from program import TOP

PLACES = ("*.md", "docs/*.md", "dev/*.md", "bench/*.md", "crates/*/README.md")
PAGES = [page for place in PLACES for page in sorted(TOP.glob(place))]
FENCED = re.compile(r"^ *```.*?^ *```$", re.MULTILINE | re.DOTALL)
LINK = re.compile(r"\]\(([^)\s]+)\)")


def anchors(page: Path) -> set[str]:
    """The anchors of a page's headings, as GitHub makes them."""
    headings = re.findall(r"(?m)^#+ (.*)$", FENCED.sub("", page.read_text()))
    kept = (re.sub(r"[^\w\- ]", "", heading.lower()) for heading in headings)
    return {heading.replace(" ", "-") for heading in kept}


def links(page: Path) -> list[str]:
    """The links of a page that stay in this tree."""
    found = LINK.findall(FENCED.sub("", page.read_text()))
    return [link for link in found if not link.startswith("http")]


class Links(unittest.TestCase):
    def test_links(self) -> None:
        self.assertGreater(sum(len(links(page)) for page in PAGES), 100)
        for page in PAGES:
            for link in links(page):
                with self.subTest(page.name, link=link):
                    name, _, anchor = link.partition("#")
                    target = page.parent / name if name else page
                    self.assertTrue(target.exists())
                    if anchor:
                        self.assertIn(anchor, anchors(target))
