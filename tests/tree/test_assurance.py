"""docs/ASSURANCE.md and the READMEs of the crates: whatever they name is there, each clause in the
contract of its call, each definition in its file, each test by its name."""

import importlib
import re
import sys
import unittest
from collections.abc import Iterator

from program import TOP

sys.path.insert(0, str(TOP / "dev"))

from generators.calls import FUNCTION, OWNER, contract, crates, end_of_signature  # noqa: E402
from generators.command_line import jobs  # noqa: E402  (dev/ is on the path)

PAGE = (TOP / "docs/ASSURANCE.md").read_text()
ROW = re.compile(r"(?m)^\| (.*`.*) \| `(crates/\S+)` \|$")
# A call with the names of its clauses, or a name alone.
NAMED = re.compile(r"`([\w:]+)`(?::((?: `\w+`)+))?")
TEST = re.compile(r"`(test_\w+)((?:\.\w+)*)`")
PLACE = re.compile(r"`((?:bench|crates|dev|dist|docs|tests|tools)/[\w./-]*)[^`]*`")
MOST_WORDS, MOST_WORDS_OF_A_CRATE = 4500, 250


def contracts(text: str) -> dict[str, list[str]]:
    """The names of the clauses of each function of a source, by the name of its type and its own;
    a clause without a name is its word."""
    found = {}
    owners = [(match.start(), match[2] or match[3]) for match in OWNER.finditer(text)]
    for match in FUNCTION.finditer(text):
        _, clauses = contract(text, end_of_signature(text, match.start(3)))
        owner = [name for start, name in owners if start < match.start()][-1:] if match[1] else []
        found["::".join([*owner, match[3]])] = clauses
    return found


def is_defined(name: str, definitions: str) -> bool:
    return bool(re.search(rf"(?m)^(?:\w+ )?pub (?:\w+ )?{name}\b", definitions))


def find_test(module: str, rest: str) -> object:
    found: object = importlib.import_module(module)
    for part in rest.split(".")[1:]:
        found = getattr(found, part)
    return found


def words_of(crate: str) -> set[str]:
    """The words of a crate's sources and definitions, and the names of its files."""
    folder = TOP / "crates" / crate
    files = [*folder.rglob("src/**/*.rt"), *folder.rglob("specs/*.antt")]
    return {word for file in files for word in re.findall(r"\w+", file.read_text())}


def pages() -> Iterator[tuple[str, str]]:
    """The page and the READMEs, each with its text."""
    yield "ASSURANCE", PAGE
    for name in crates():
        yield name, (TOP / "crates" / name / "README.md").read_text()


class Assurance(unittest.TestCase):
    def test_calls_and_definitions(self) -> None:
        """Each row of a table names calls with clauses of theirs, or definitions of its file."""
        rows = ROW.findall(PAGE)
        self.assertGreater(len(rows), 50)
        for names, place in rows:
            text = (TOP / place).read_text()
            known = contracts(text) if place.endswith(".rt") else {}
            for name, clauses in NAMED.findall(names):
                with self.subTest(place, name=name):
                    if known:
                        self.assertTrue(known[name])
                        self.assertEqual(set(), set(re.findall(r"\w+", clauses)) - set(known[name]))
                    else:
                        self.assertTrue(is_defined(name, text))

    def test_each_promise_is_carried(self) -> None:
        """Each chapter about a promise has a table, and each table only rows of that form."""
        promises = PAGE.partition("\n## The parts\n")[2].partition("\n## Only tested\n")[0]
        for chapter in promises.split("\n### ")[1:]:
            with self.subTest(chapter.partition("\n")[0]):
                self.assertIn("arried by", chapter)
                rows = [line for line in chapter.splitlines() if line.startswith("| `")]
                self.assertEqual(rows, [row[0] for row in re.finditer(ROW, chapter)])

    def test_length(self) -> None:
        self.assertLessEqual(len(PAGE.split()), MOST_WORDS)

    def test_tests_and_files(self) -> None:
        """Each test and each file that a page names is there."""
        for name, text in pages():
            for module, rest in TEST.findall(text):
                if module not in crates():
                    with self.subTest(name, test=module + rest):
                        self.assertTrue(find_test(module, rest))
            for place in PLACE.findall(text.replace("/NAME/", "/show_core/")):
                with self.subTest(name, place=place):
                    self.assertTrue(TOP.joinpath(place).exists())


class Readmes(unittest.TestCase):
    def test_each_crate(self) -> None:
        """It has its name, and a sentence on what it is for, by itself or in front of others."""
        for name in crates():
            with self.subTest(name):
                text = (TOP / "crates" / name / "README.md").read_text()
                self.assertRegex(text, rf"\A# {name}\n\n[A-Z].*\.\n")
                self.assertLessEqual(len(text.split()), MOST_WORDS_OF_A_CRATE)

    def test_names(self) -> None:
        """What stands there as code is a name of the crate, another crate, a test or a file."""
        for name in crates():
            known = words_of(name) | {*crates(), *(job.name for job in jobs())}
            text = (TOP / "crates" / name / "README.md").read_text()
            for code in re.findall(r"`([^`]+)`", text):
                if not code.startswith("test_") and "/" not in code:
                    with self.subTest(name, code=code):
                        self.assertEqual(set(), set(code.split("::")) - known)
