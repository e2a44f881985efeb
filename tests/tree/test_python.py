"""The Python of the tree, as mypy and pyflakes read it by the settings of pyproject.toml, and the
length of its lines."""

import re
import shutil
import subprocess
import tempfile
import unittest

from program import TOP

NAMES = ("conform", "convert", "desk", "osc", "picture", "premiere", "sheet", "storm", "watch")
TOOLS = [
    *(TOP / "tools/cueplayer_tools", TOP / "cueplayer-night"),
    *(TOP / "tools" / name for name in NAMES),
]
SCRIPTS = ("calls", "edits", "lines", "pages", "wrong-programs")
PACKAGES = ("generators", "wrong_bodies")
WRITERS = [TOP / "dev" / name for name in (*PACKAGES, *SCRIPTS)]
TESTS = [TOP / "tests", TOP / "tests/run"]


def is_python(path):
    """Whether a file is Python, by its name or its first line."""
    if not path.is_file() or path.suffix not in ("", ".py"):
        return False
    return path.suffix == ".py" or b"python3" in path.read_bytes()[:100].partition(b"\n")[0]


def files_of(*paths):
    """The Python files of these paths."""
    for path in paths:
        yield from sorted(filter(is_python, path.rglob("*") if path.is_dir() else [path]))


def files():
    """All of it, file by file."""
    return list(files_of(*TOOLS, *WRITERS, *TESTS, TOP / "bench"))


class Python(unittest.TestCase):
    def assertQuiet(self, *words):
        done = subprocess.run(words, cwd=TOP, capture_output=True, text=True, timeout=300)
        lines = (done.stdout + done.stderr).splitlines()
        self.assertEqual([], [line for line in lines if not self.is_known(line)])

    def is_known(self, line):
        """Whether a line tells of success, or of a line that says why it is as it is."""
        place = re.match(r"(.*?):(\d+):", line)
        source = open(place[1]).read().splitlines()[int(place[2]) - 1] if place else ""
        return line.startswith("Success: ") or "# noqa: " in source

    def assertTyped(self, strictness, *groups):
        """Each group by itself, since scripts of several folders have one name."""
        with tempfile.TemporaryDirectory() as cache:
            for group in groups:
                self.assertQuiet("mypy", "--cache-dir", cache, strictness, *group)

    def test_lines(self):
        """None is longer than pyproject.toml says."""
        longest = int(re.search(r"line-length = (\d+)", (TOP / "pyproject.toml").read_text())[1])
        found = [
            f"{file.relative_to(TOP)}:{number}: {len(line)} columns"
            for file in files()
            for number, line in enumerate(file.read_text().splitlines(), 1)
            if len(line) > longest
        ]
        self.assertEqual([], found)

    @unittest.skipUnless(shutil.which("mypy"), "mypy is not on PATH")
    def test_tools_are_typed(self):
        self.assertTyped("--strict", [*TOOLS, *WRITERS])

    @unittest.skipUnless(shutil.which("mypy"), "mypy is not on PATH")
    def test_types_of_tests_and_benches(self):
        """One that meets None where it wants a value fails; so they need not say that it is
        there."""
        benches = list(files_of(TOP / "bench"))
        self.assertTyped("--no-strict-optional", TESTS, benches)

    @unittest.skipUnless(shutil.which("pyflakes3"), "pyflakes3 is not on PATH")
    def test_no_name_is_left_over(self):
        self.assertQuiet("pyflakes3", *files())
