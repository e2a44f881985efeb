"""docs/DESIGN.md: its layers have the crates that there are, and the files that it names for a
change are there. The calls that docs/DECISIONS.md says this tree adds are there too. And no crate
has more proof than its code is worth."""

import re
import subprocess
import unittest

from program import TOP

DESIGN = (TOP / "docs/DESIGN.md").read_text()
DECISIONS = (TOP / "docs/DECISIONS.md").read_text()
# What each crate stands on.
CRATES = {
    crate: below.split()
    for crate, below in re.findall(r"(?m)^(\w+):(.*)$", (TOP / "crates.txt").read_text())
}
# Folders of which a file is named without them.
PYTHON = ("", "tests/", "tests/harness/", "tests/expected/", "tools/cueplayer_tools/")


def chapter(page, title):
    return page.partition(f"\n## {title}\n")[2].partition("\n## ")[0]


def layers():
    """The crates of each layer, the lowest first."""
    block = chapter(DESIGN, "Layers").split("```")[1]
    return [re.split(r"  +", line)[1].split() for line in block.strip().splitlines()]


def is_there(crate, name):
    """Whether a row that is at a crate names a file by this word, or no file at all."""
    if name.endswith(".rt"):
        return any((TOP / "crates" / crate / "src").rglob(name))
    if name.startswith(("specs/", "proofs/")):
        place = TOP / "crates" / crate / name
        return place.is_dir() or place.with_suffix(".antt").is_file()
    if name.endswith((".py", ".1", ".5", ".md", ".bash", ".replies")):
        return any((TOP / folder / name).is_file() for folder in PYTHON)
    return True


def has_call(crate, call):
    """Whether a crate has a function of this name, of its own or of a public trait."""
    sources = [path.read_text() for path in (TOP / "crates" / crate / "src").rglob("*.rt")]
    return any(re.search(rf"(?m)^ *(pub )?fn {call}\b", source) for source in sources)


class Design(unittest.TestCase):
    def test_layers(self):
        """Each crate stands in one of them, and on no crate of a later one."""
        place = {crate: at for at, layer in enumerate(layers()) for crate in layer}
        self.assertEqual(sorted(CRATES), sorted(crate for layer in layers() for crate in layer))
        for crate, below in CRATES.items():
            late = [other for other in below if place.get(other, 0) > place[crate]]
            self.assertEqual([], late, crate)

    def test_first_lines(self):
        """Each crate says in its first line what it is."""
        for crate in CRATES:
            source = TOP / "crates" / crate / "src"
            main = source / ("lib.rt" if (source / "lib.rt").exists() else "main.rt")
            self.assertTrue(main.read_text().startswith("//! "), crate)

    def test_where_a_change_goes(self):
        """Each file that is named there is one of the crate that was named last."""
        rows = re.findall(r"(?m)^\| (.*) \| (.*) \|$", chapter(DESIGN, "Where a change goes"))[1:]
        self.assertGreater(len(rows), 20)
        for change, places in rows:
            crate = ""
            for name in re.findall(r"`([^`]+)`", places):
                crate = name if name in CRATES else crate
                with self.subTest(change, name=name):
                    self.assertTrue(is_there(crate, name))

    def test_added_calls(self):
        """Each call that the second table of DECISIONS names stands in its crate."""
        rows = re.findall(r"(?m)^\| (\w+) \| (.*) \|$", chapter(DECISIONS, "What this tree adds"))
        calls = [(crate, call) for crate, cell in rows for call in re.findall(r"`(\w+)`", cell)]
        calls = [(crate, call) for crate, call in calls if crate in CRATES]
        self.assertGreater(len(calls), 20)
        for crate, call in calls:
            with self.subTest(crate, call=call):
                self.assertTrue(has_call(crate, call))

    def test_lines_of_proof(self):
        """At most three to a line of code."""
        table = subprocess.run(
            [TOP / "dev/lines"], capture_output=True, text=True, check=True, timeout=60
        ).stdout
        rows = [line.split() for line in table.splitlines()[1:-1]]
        self.assertEqual(sorted(CRATES), sorted(row[0] for row in rows))
        self.assertEqual([], [row[0] for row in rows if float(row[-1]) > 3])
