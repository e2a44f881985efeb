"""The table of `tools/convert`: what each cue lights, by the console's own channels, to hold
against its printout."""

import csv
import io
import re
import unittest

from conversions import BOUNDS, ConvertTest
from expected import show as shows
from program import TOP, text
from tooling import run_tool

EXPORTS = TOP / "examples/exports"
# A show that is an export as well: each channel has its number in both.
SHOW = (TOP / "examples/small-play.asc").read_bytes()


def percent(byte):
    """The number of percent that is nearest to a level."""
    return round(byte * 100 / 255)


def rows_of(show):
    """The rows that a table has of a show by the second reader: cue, channel, percent."""
    rows = []
    for number in sorted(show.cues):
        lit = {n: byte for n, byte in sorted(show.cues[number].levels.items()) if byte}
        cue = f"{number / 1000:g}"
        rows += [(cue, str(n), str(percent(byte))) for n, byte in lit.items()]
        rows += [(cue, "", "0")] * (not lit)
    return rows


class Table(ConvertTest):
    def table(self, content, form):
        """The table in a file of this form, and what is reported."""
        file = self.folder / f"table.{form}"
        done, told = self.run_tool(content, "--table", file)
        self.assertEqual(0, done.returncode, told)
        return file.read_text(), told

    def lines(self, told):
        return [line.removeprefix("table: ") for line in told if line.startswith("table: ")]

    def test_csv(self):
        """A row for each channel of a cue, by the second reader."""
        table, _ = self.table(SHOW, "csv")
        head, *rows = csv.reader(io.StringIO(table))
        self.assertEqual(["cue", "channel", "percent"], head)
        self.assertEqual(rows_of(shows.read(SHOW)), [tuple(row) for row in rows])
        self.assertGreater(len(rows), 20)

    def test_lines(self):
        """The report ends with the same, a line a cue."""
        _, told = self.table(SHOW, "csv")
        title, *lines = self.lines(told)
        self.assertEqual(told[-len(lines) :], [f"table: {line}" for line in lines])
        self.assertIn("printout", title)
        rows = []
        for line in lines:
            cue, said = re.fullmatch(r"cue ([0-9.]+): (.*)", line).groups()
            found = {}
            for group in [] if said == "dark" else said.split("; "):
                channels, level = group.split(" at ")
                for run in channels.split(", "):
                    first, _, last = run.partition("-")
                    numbers = range(int(first), int(last or first) + 1)
                    found |= dict.fromkeys(numbers, level.replace("full", "100"))
            rows += [(cue, str(n), level) for n, level in sorted(found.items())]
            rows += [(cue, "", "0")] * (not found)
        self.assertEqual(rows_of(shows.read(SHOW)), rows)

    def test_page(self):
        """A page to print: a row for each cue, of harmless parts; labels are text."""
        lines = ("PATCH 1 1<1@FL", "CUE 1", "TEXT dawn <b>&", "CHAN 1@50", "CUE 2.5")
        page, _ = self.table(text(*lines, *BOUNDS), "html")
        self.assertTrue(page.startswith("<!DOCTYPE html>"))
        self.assertNotRegex(page, r"<script|url\(|@import|://|<b>")
        cells = [re.sub("<.*?>", "", cell) for cell in re.findall(r"<td[^>]*>(.*?)</td>", page)]
        first = ["1", "dawn &lt;b&gt;&amp;", "1 at 50", ""]
        self.assertEqual([*first, "2.5", "", "dark", ""], cells)

    def test_channels_of_the_export(self):
        """A channel has the number that the console gives it, whatever it has in the show."""
        content = (EXPORTS / "eos.asc").read_bytes()
        table, told = self.table(content, "csv")
        self.assertIn("1,9001,50\n1,9002,50\n2,11,50\n", table)
        self.assertIn("cue 1: 9001-9002 at 50", self.lines(told))
        self.assertIn("cue 4: 1-2 at full; 3-4 at 80; 21 at 25", self.lines(told))

    def test_both_forms(self):
        """A table of each form in one run."""
        files = [self.folder / "a.csv", self.folder / "b.HTML"]
        words = [word for file in files for word in ("--table", file)]
        self.assertEqual(0, self.run_tool(SHOW, *words)[0].returncode)
        self.assertTrue(all(file.stat().st_size > 100 for file in files))

    def test_refused(self):
        """Another form is refused; where the table cannot be written, no show is printed."""
        done = run_tool("convert", "--table", "table.txt", "-")
        self.assertEqual((2, ""), (done.returncode, done.stdout))
        self.assertIn("not a name that ends with .csv or .html: 'table.txt'", done.stderr)
        done, told = self.run_tool(SHOW, "--table", self.folder / "none/table.csv")
        self.assertEqual((1, ""), (done.returncode, done.stdout))
        self.assertRegex(told[-1], r"^convert: .*/none/table.csv: No such file or directory$")


if __name__ == "__main__":
    unittest.main()
