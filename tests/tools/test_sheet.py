"""`tools/sheet`: a page that says what the show says, stands on its own, and prints on A4 and
Letter."""

import base64
import html.parser
import random
import re
import unittest

import inputs
from browser import CHROMIUM, MISSING, Browser
from expected import runs
from expected import show as shows
from program import TOP, FolderTest, text
from tooling import run_tool

from cueplayer_tools import channel_levels, cue_list, looks

from cueplayer_tools.sheet import changes as sheet_changes
from cueplayer_tools.sheet.changes import Change

# The width and height of paper, in inches.
PAPERS = {"A4": (8.27, 11.69), "Letter": (8.5, 11)}
# What a page may be made of; none of it loads anything or runs.
TAGS = set("html head meta title style body h1 h2 p table thead tbody tr th td div span".split())
SEED = 1


class Page(html.parser.HTMLParser):
    """The rows of a page, each a list of the texts of its cells, and all that its tags say."""

    def __init__(self, source):
        super().__init__()
        self.rows, self.tags, self.attributes, self.texts = [], set(), [], []
        self.open = []
        self.feed(source)
        self.close()
        assert not self.open, self.open

    def handle_starttag(self, tag, attributes):
        self.tags.add(tag)
        self.attributes += attributes
        if tag == "tr":
            self.rows.append([])
        elif tag in ("td", "th"):
            self.rows[-1].append("")
        elif tag == "div":
            self.rows[-1][-1] += "\n"
        if tag != "meta":
            self.open.append(tag)

    def handle_endtag(self, tag):
        assert self.open.pop() == tag, tag

    def handle_data(self, data):
        if "td" in self.open or "th" in self.open:
            self.rows[-1][-1] += data
        elif data.strip():
            self.texts.append(data)


class SheetTest(FolderTest):
    def sheet(self, content, *words):
        """The page of a show: sound, of harmless parts alone."""
        done = run_tool("sheet", self.file("night.asc", content), *words)
        self.assertEqual((0, ""), (done.returncode, done.stderr))
        page = Page(done.stdout)
        self.assertLessEqual(page.tags, TAGS)
        names = {name for name, _ in page.attributes}
        self.assertLessEqual(names, {"lang", "charset", "http-equiv", "content", "name", "class"})
        self.assertNotRegex(done.stdout, r"url\(|@import|://")
        return page

    def rows(self, content, *words):
        """The texts of the cells, their lines parted by bars."""
        cells = lambda row: [
            " | ".join(cell.replace("\xa0", " ").strip().split("\n")) for cell in row
        ]
        return [cells(row) for row in self.sheet(content, *words).rows]


class Sheets(SheetTest):
    def test_a_show(self):
        """Rows by hand: labels, times with delays, what follows by itself, and what changes."""
        content = text(
            "PATCH 1 1<1@FL 2<2@80 3<3@50 3<600@FL 4<4@FL",
            "CUE 1 ! house to half", "UP 3", "DOWN 1:30 0.5", "CHAN 1@50 2@50 3@FL",
            "CUE 2 ! p. 12, the door", "TEXT blackout", "FOLLOWON 10",
            "CUE 2.5", "TEXT", "CHAN 1@50 4@FL 9@FL", "UP 0", "FOLLOWON 5", "SUB 3 ! haze",
            "CHAN 1@5", "GROUP 7", "CHAN 1@5",
        )  # fmt: skip
        expected = [
            ["Cue", "Page", "Label", "Up", "Down", "What changes", "Called at"],
            ["1", "", "house to half", "3 s", "1:30 | after 0.5 s",
             "up 1-2 to 50; 3 to full | patched 2 at 40", ""],
            ["2", "12", "blackout | p. 12, the door", "0 s", "0 s", "out 1-3", ""],
            ["2.5 | by itself, 10 s after cue 2", "", "", "0 s", "0 s",
             "up 1 to 50; 4, 9 to full | no dimmer 9", ""],
            ["3", "haze"],
            ["7", ""],
        ]  # fmt: skip
        self.assertEqual(expected, self.rows(content))

    def test_patch(self):
        """Below stands which slots a channel runs, in few words."""
        patch = "PATCH 1 1<1@FL 2<2@FL 3<3@50 5<4@FL 5<600@FL 7<8192@H80 8<512@FL 9<513@FL"
        page = self.sheet(text(patch, "CUE 1"))
        told = "1-2: 1/1-2; 3: 1/3 at 50; 5: 1/4, 2/88; 7: 16/512 at 50; 8: 1/512; 9: 2/1"
        self.assertIn(told, [part.replace("\xa0", " ") for part in page.texts])
        self.assertNotIn("Patch", self.sheet(text("CUE 1")).texts)

    def test_notes(self):
        """All that the show says of a cue stands there, whole and once; a page is named by one."""
        content = text(
            "CUE 1 ! act one", "TEXT STOP! wait", "TEXT \"Marie enters\"", "CHAN 1@FL ! no note",
            "TEXT \"Marie enters\"", "SUB 1", "TEXT of no cue", "CUE 1 ! again, S. 7a",
            "CUE 2 2", "TEXT of another page", "CUE 3 ! page 9", "$MAKER", "TEXT of the maker",
            "CUE 4", "CLEAR x", "TEXT of no record", "CUE 5 ! UP 5, steps 3", "ENDDATA",
            "CUE 1 ! behind the end",
        )  # fmt: skip
        rows = self.rows(content)[1:5]
        notes = "Marie enters | act one | STOP! wait | again, S. 7a"
        expected = [["7a", notes], ["9", "page 9"], ["", ""], ["", "UP 5, steps 3"]]
        self.assertEqual(expected, [row[1:3] for row in rows])
        cleared = text("CUE 1 ! old", "CLEAR CUES", "CUE 1 ! new")
        self.assertEqual(["", "new"], self.rows(cleared)[1][1:3])

    def test_heads(self):
        content = text("PATCH 1 1<1@FL", "CUE 1", "CHAN 1@FL")
        page = self.sheet(content, "--title", "Tartuffe & Co")
        self.assertIn("Tartuffe & Co", page.texts)
        self.assertTrue(any("SHA-256 " in part for part in page.texts))
        self.assertNotIn("Submasters", page.texts)
        self.assertIn("night.asc", self.sheet(content).texts)

    def test_names_are_text(self):
        """What a show, a file or a title says is never markup."""
        evil = '"<script>alert(1)</script> & <b> \'x\''
        title = f"</title></h1>{evil}"
        content = text(f"CUE 1\nTEXT -{evil}-", f"SUB 1 ! -{evil}</h1>-", f"GROUP 2 ! <!--{evil}")
        rows = self.rows(content, "--title", title)
        self.assertEqual(f"-{evil}-", rows[1][2])
        self.assertEqual([["1", f"-{evil}</h1>-"], ["2", f"!--{evil}"]], rows[2:])
        self.assertEqual(2, self.sheet(content, "--title", title).texts.count(title))

    def test_names_of_any_bytes(self):
        label = bytes(byte for byte in range(1, 256) if byte not in b"\n!")
        rows = self.rows(
            b"CUE 1\nTEXT " + label + b"\nCUE 2\nTEXT Caf\xc3\xa9\nCUE 3\nTEXT Caf\xe9\n"
        )
        self.assertEqual(["Café", "Café"], [row[2] for row in rows[2:]])

    def test_nothing_patched(self):
        page = self.sheet(text("CUE 1", "CHAN 1@FL"))
        self.assertEqual("up 1 to full", page.rows[1][5].replace("\xa0", " ").strip())
        self.assertTrue(
            any("No dimmer is patched: no cue lights anything." in part for part in page.texts)
        )
        self.assertEqual(1, len(self.sheet(b"").rows))

    def test_examples(self):
        """Each cue of the examples has its row."""
        for file in sorted((TOP / "examples").glob("*.asc")):
            with self.subTest(file.name):
                show = shows.read(file.read_bytes())
                rows = self.rows(file.read_bytes())[1:]
                self.assertEqual(len(show.cues) + len(show.subs) + len(show.groups), len(rows))
                labels = [show.label("cues", n).decode() for n in sorted(show.cues)]
                self.assertEqual(labels, [row[2] for row in rows[: len(labels)]])

    def test_refused(self):
        for content, told in (
            (text("CUE x"), "show line 1: BadNumber"),
            (b"!" * 1_048_577, "show: TooLong"),
        ):
            done = run_tool("sheet", self.file("night.asc", content))
            self.assertEqual((1, ""), (done.returncode, done.stdout))
            self.assertTrue(done.stderr.startswith(f"sheet: {told}"), done.stderr)
        done = run_tool("sheet", self.folder / "none")
        self.assertEqual((1, ""), (done.returncode, done.stdout))
        self.assertIn("No such file or directory", done.stderr)
        self.assertEqual(2, run_tool("sheet").returncode)


class Changes(unittest.TestCase):
    def test_rise_fall_and_out(self):
        before = {1: 0, 2: 255, 3: 128, 4: 128, 5: 9}
        after = {1: 26, 2: 128, 3: 0, 4: 128, 5: 26, 6: 0}
        expected = [Change("up", [1, 5], 26), Change("down", [2], 128), Change("out", [3], 0)]
        found = sheet_changes.changes(before, after)
        self.assertEqual(expected, found)
        self.assertEqual(
            ["1, 5 to\xa010", "2 to\xa050", "3"], [change.words() for change in found]
        )

    def test_many(self):
        """Beyond twelve levels it is told how many channels more there are."""
        found = sheet_changes.change_lines(sheet_changes.changes({}, {n: n for n in range(1, 15)}))
        self.assertEqual([("and", "2 channels more")], found[1:])
        self.assertEqual(12, found[0][1].count(";") + 1)

    def test_percent(self):
        told = {0: "0", 1: "0", 2: "1", 128: "50", 254: "100", 255: "full"}
        self.assertEqual(told, {byte: sheet_changes.percent(byte) for byte in told})


class Looks(FolderTest):
    """The slots of all cues in one rehearsal, against a second reader."""

    def assertLooks(self, content):
        file = str(self.file("night.asc", content))
        show = cue_list.read_show(file)
        found = looks.looks_of(file, show)
        self.assertEqual(show.order, list(found))
        for cue, look in found.items():
            lines = [
                line for n, slots in sorted(look.items()) for line in (f"universe {n}", slots)
            ]
            self.assertEqual(runs.slots(content, cue, 1).out, text(*lines) if lines else b"")

    def test_sixteen_universes(self):
        patch = [f"PATCH 1 {n + 1}<{512 * n + 7}@FL" for n in range(16)]
        cues = [line for n in range(1, 17) for line in (f"CUE {n}", f"CHAN {n}@FL 1@50")]
        self.assertLooks(text(*patch, *cues))

    def test_follow_ons(self):
        """A cue that goes on at once is shown by itself."""
        cues = (
            "CUE 1",
            "FOLLOWON 0",
            "CHAN 1@10",
            "CUE 2",
            "FOLLOWON 0",
            "CHAN 1@20",
            "CUE 3",
            "CHAN 1@30",
        )
        self.assertLooks(
            text("PATCH 1 1<1@FL", *cues, "FOLLOWON 0.5", "CUE 4", "UP 100", "CHAN 1@FL")
        )

    def test_shows_by_chance(self):
        r = random.Random(SEED)
        tried = 0
        while tried < 8:
            content = inputs.show(r, 0.0)
            if isinstance(shows.read(content), shows.Show):
                tried += 1
                with self.subTest(content):
                    self.assertLooks(content)


class ChannelLevels(FolderTest):
    """The levels of channels, against a second reader."""

    def assertLevels(self, content):
        show = cue_list.read_show(str(self.file("night.asc", content)))
        read = shows.read(content)
        expected = {
            cue: {channel: level for channel, level in read.cues[cue].levels.items() if level}
            for cue in show.order
        }
        self.assertEqual(expected, channel_levels.levels_of(content, show, self.folder))

    def test_however_patched(self):
        """A channel's own level counts, whatever its patch says, and behind whatever comes."""
        for lines in (
            ("PATCH 1 1<1@0 2<8192@1", "CUE 1", "CHAN 1@50 2@H01 4096@FL 0003/10"),
            ("CUE 1", "CHAN 1@FL", "$MAKER", "PATCH 1 0<1@FL", "$MAKER", "CHAN 2@FL"),
            ("CUE 1", "CHAN 1@FL ! ENDDATA", " ,endData@x", "CUE 2", "CHAN 2@FL"),
            ("CUE 1", "CHAN 1@FL", "CLEAR ALL", "CUE 2", "FOLLOWON 0", "CHAN 512@H0F 513@FL"),
            (),
        ):
            self.assertLevels(text(*lines))
        self.assertLevels(b"CUE 1\r\nCHAN 1@FL 7@3\x1a")

    def test_all_channels(self):
        channels = [f"{channel}@H{channel % 256:02X}" for channel in range(1, 4097)]
        self.assertLevels(text("CUE 1", *(f"CHAN {each}" for each in channels), "CUE 2"))

    def test_shows_by_chance(self):
        r = random.Random(SEED)
        tried = 0
        while tried < 8:
            content = inputs.show(r, 0.0)
            if isinstance(shows.read(content), shows.Show):
                tried += 1
                with self.subTest(content):
                    self.assertLevels(content)


@unittest.skipUnless(CHROMIUM, MISSING)
class Printed(SheetTest):
    def show(self):
        """Sixty cues of many channels, the last of the longest times and with a long label."""
        lines = ["PATCH 1 " + " ".join(f"{n}<{n}@FL" for n in range(1, 200))]
        r = random.Random(SEED)
        for n in range(1, 60):
            lines += [
                f"CUE {n}",
                f"TEXT cue {n}, in which much goes on",
                "UP 1:30 10",
                "FOLLOWON 5",
            ]
            lines += [
                "CHAN " + " ".join(f"{r.randrange(1, 200)}@{r.choice('1379')}0" for _ in range(30))
            ]
        lines += ["CUE 9999.999", "TEXT " + "W" * 80, "UP 99:59.99 99:59.99", "CHAN 4096@FL"]
        return text(*lines)

    def test_prints(self):
        """On both papers nothing is cut off at the side, and the pages are as many as the rows
        need."""
        file = self.folder / "sheet.html"
        done = run_tool("sheet", self.file("night.asc", self.show()))
        file.write_text(done.stdout)
        browser = Browser(self)
        for name, (width, height) in PAPERS.items():
            with self.subTest(name):
                # The page's own margins are 12 mm at either side.
                inside = round((width - 24 / 25.4) * 96)
                page = browser.open_page(file.as_uri(), inside, 800)
                page.call("Emulation.setEmulatedMedia", media="print")
                page.wait("document.querySelectorAll('tr').length == 61")
                self.assertLessEqual(page.value("document.documentElement.scrollWidth"), inside)
                printed = page.call("Page.printToPDF", paperWidth=width, paperHeight=height)
                pages = len(re.findall(rb"/Type\s*/Page\b", base64.b64decode(printed["data"])))
                self.assertTrue(3 <= pages <= 16, pages)
                page.close()
        self.assertEqual([], browser.faults)


if __name__ == "__main__":
    unittest.main()
