"""`tools/convert` never loses light without a word: what may have held some is `lost`, by its
record and its lines, and the exit status is 3."""

import re
import unittest

from conversions import ADD, BOUNDS, NO_END, NO_HEAD, ConvertTest
from expected import show as shows
from program import TOP, text
from tooling import run_tool

from cueplayer_tools.convert.report import CHANGED, DOUBT, LEFT_OUT, LOST, NOT_PLAYED

EXPORTS = TOP / "examples/exports"
PATCH = "PATCH 1 1<1@FL 2<2@FL 3<3@FL"


def levels_of(show):
    """The levels of a show's cues, by their numbers."""
    return {number / 1000: cue.levels for number, cue in show.cues.items()}


def drop_lines(content, keyword):
    """An export without the lines that begin so."""
    return re.sub(rb"(?m)^[ ]*" + re.escape(keyword) + rb".*\n", b"", content)


class LossTest(ConvertTest):
    def losses(self, found):
        return [line for line in found.report.lines() if f"{LOST}: " in line]

    def assertLost(self, lines, *expected):
        """Of these lines this is lost, and the status says so."""
        found, show = self.convert(*lines)
        self.assertEqual(list(expected), self.losses(found))
        done, told = self.run_tool(text(*lines, *BOUNDS))
        self.assertEqual(3, done.returncode)
        places = f"{len(expected)} place{'s' if len(expected) > 1 else ''}"
        self.assertEqual(
            f"light: may be missing in {places}: put back what is lost below", told[2]
        )
        self.assertEqual(found.show.decode("latin-1"), done.stdout)
        return show


class MakersLines(LossTest):
    """Lines that begin with `$`, inside a record."""

    CONTENT = (EXPORTS / "inside.asc").read_bytes()
    OPTIONS = "convert with --inside TEXT, else with --outside TEXT"

    def test_lost_by_cue(self):
        """The lines below belong to the maker's record, as in a show file: they are lost, and the
        report says of which cue."""
        found, show = self.convert(self.CONTENT)
        self.assertEqual(levels_of(shows.read(self.CONTENT)), levels_of(show))
        lost = self.losses(found)
        for line in (
            "lines 20-22: lost: cue 1: CHAN, UP, DOWN below $TEXT (line 19): if they belong to"
            f" cue 1, {self.OPTIONS}",
            "lines 18, 22: lost: cue 1 comes out dark, though lines stand below it",
            "line 27: lost: cue 2: CHAN below $TEXT (line 26): if they belong to cue 2,"
            f" {self.OPTIONS}",
            "line 16: lost: group 1: CHAN below $TEXT (line 15): if they belong to group 1,"
            f" {self.OPTIONS}",
        ):
            self.assertIn(line, lost)
        self.assertEqual(6, len(lost))

    def test_inside(self):
        """The option gives the lines to the cue again: all light is that of the export without the
        maker's lines, by the second reader."""
        whole = drop_lines(drop_lines(self.CONTENT, b"$TEXT"), b"$NOTE")
        choices = {"inside": frozenset(("TEXT", "NOTE"))}
        found, show = self.convert(self.CONTENT, **choices)
        meant = shows.read(whole)
        self.assertEqual((meant.cues, meant.groups), (show.cues, show.groups))
        self.assertFalse(found.report.has(LOST, DOUBT))
        told = "lines 15, 19, 26, 31: changed: $TEXT: the record above it goes on (--inside)"
        self.assertIn(told, found.report.lines())
        one, show = self.convert(self.CONTENT, inside=frozenset(("TEXT",)))
        self.assertEqual(["cue 3"], re.findall(r"lost: (cue \d+):", "\n".join(self.losses(one))))

    def test_outside(self):
        """The other one says that they open a record of the maker's own."""
        choices = {"outside": frozenset(("TEXT", "NOTE"))}
        found, show = self.convert(self.CONTENT, **choices)
        self.assertEqual(levels_of(shows.read(self.CONTENT)), levels_of(show))
        self.assertFalse(found.report.has(LOST))
        told = "lines 18, 28: in doubt: cues 1, 3 list no channel: right for a blackout"
        self.assertIn(told, found.report.lines())

    def test_options(self):
        """They take the word with its `$` or without it, in any case, and several words."""
        file = EXPORTS / "inside.asc"
        for words, status in (
            ((), 3),
            (("--inside", "TEXT"), 3),
            (("--inside", "text", "--inside", "$Note"), 0),
            (("--inside", "TEXT", "--outside", "NOTE"), 0),
        ):
            self.assertEqual(status, run_tool("convert", file, *words).returncode, words)

    def test_each_line_of_a_record(self):
        """CHAN, its continuation, UP, DOWN, FOLLOWON and LINK; not a label alone."""
        for line, lines in (
            ("CHAN 2@FL", "CHAN"), ("UP 5", "UP"), ("DOWN 5", "DOWN"), ("FOLLOWON 5", "FOLLOWON"),
            ("LINK 9", "LINK"), ("2@FL", "levels"), ("CHN 2@FL", "levels"),
        ):  # fmt: skip
            with self.subTest(line):
                told = f"line 4: lost: cue 1: {lines} below $X (line 3): if they belong to cue 1,"
                options = "convert with --inside X, else with --outside X"
                self.assertLost(("CUE 1", "CHAN 1@FL", "$X", line), f"{told} {options}")
        found, _ = self.convert("CUE 1", "CHAN 1@FL", "$X", "TEXT y")
        self.assertTold(found, "lines 3-4: left out: $X records, of the maker's own")

    def test_patch(self):
        """A maker's patch is lost where channels have no dimmer without it; else what is kept is
        told."""
        own = "$Patch records, of the maker's own"
        cue = ("CUE 1", "CHAN 1@FL 7@50")
        found, _ = self.convert("$Patch 1 1", PATCH, "CUE 1", "CHAN 1@FL")
        self.assertTold(found, f"line 1: left out: {own}; kept by PATCH lines: 3 dimmers")
        told = f"line 1: lost: {own}: no PATCH line has a dimmer"
        self.assertLost(("$Patch 1 1", PATCH, *cue), f"{told} for channel 7")
        self.assertLost(("$Patch 1 1", *cue), told)
        below = "if they belong to the patch, convert with --inside X, else with --outside X"
        self.assertLost(
            ("PATCH 1", "1<1@FL", "$X", "2<2@FL", *cue),
            f"line 4: lost: the patch: levels below $X (line 3): {below}",
        )

    def test_records_by_their_names(self):
        own = "of the maker's own"
        cue = ("CUE 1", "CHAN 1@FL")
        found, _ = self.convert("$Cue 1", "$$Part 1", "$CueList 5", *cue)
        self.assertTold(
            found,
            f"lines 1-2: left out: $Cue records, {own}; kept by other lines: 1 cue",
            f"line 3: left out: $CueList records, {own}; kept by other lines: 1 cue",
        )
        told = f"line 1: lost: $Cue records, {own}: no other line has cue 7"
        self.assertLost(("$Cue 7", *cue), told)
        told = f"line 1: lost: $Group records, {own}: no other line has group 3"
        self.assertLost(("$Group 3", *cue), told)


class Bounds(LossTest):
    """Exports that are cut."""

    def test_cut(self):
        """No ENDDATA: lost, with the place; and the show has none either."""
        content = (TOP / "examples/small-play.asc").read_bytes()
        place = content.index(b"CUE 3")
        lines = content[:place].count(b"\n")
        last = max(number for number, line in enumerate(content[:place].split(b"\n"), 1)
                   if line.partition(b"!")[0].strip())
        done, told = self.run_tool(content[:place])
        self.assertEqual(3, done.returncode)
        self.assertIn(f"lost: {NO_END}line {last}, in cue 2{ADD}", told)
        self.assertTrue(told[0].startswith(f"read: {self.folder}/given.asc: {lines} lines"))
        self.assertNotIn("ENDDATA", done.stdout)
        self.assertIn(", and what may have held light was lost: see its report.", done.stdout)
        whole, told = self.run_tool(content)
        self.assertEqual(0, whole.returncode)
        self.assertIn("light: nothing is lost that may have held any", told)
        self.assertTrue(whole.stdout.endswith("\nENDDATA\n"))
        # A second conversion notices it as well.
        again, _ = self.run_tool(done.stdout.encode("latin-1"))
        self.assertEqual((3, done.stdout.split("\n")[2:]),
                         (again.returncode, again.stdout.split("\n")[2:]))

    def test_no_beginning(self):
        found, _ = self.convert(text("CUE 1", "CHAN 1@FL", "ENDDATA"))
        self.assertTold(found, f"lost: {NO_HEAD}{ADD}")

    def test_behind_the_end(self):
        """Lines behind ENDDATA, by their records; the last line twice is none."""
        lines = ("IDENT 3:0", "CUE 1", "CHAN 1@FL", "ENDDATA", "! x", "CUE 2", "CHAN 2@FL", "\x1a")
        found, show = self.convert(text(*lines, "SUB 3"))
        self.assertEqual({1: {1: 255}}, levels_of(show))
        self.assertTold(
            found, "lines 6-7, 9: lost: lines behind ENDDATA: cue 2, submaster 3"
        )
        found, _ = self.convert(text(*lines[:4], "ENDDATA", "\x1a"))
        self.assertTold(found)

    def test_cut_file(self):
        """An export that broke off, with more damage: each is named, the whole file first."""
        content = (EXPORTS / "cut.asc").read_bytes()
        found, show = self.convert(content)
        first, *rest = self.losses(found)
        self.assertEqual(f"lost: {NO_END}line 22, in cue 5{ADD}", first)
        self.assertEqual(
            [6, 8, 8, 11, 12, 13, 22], [int(line.split()[1][:-1]) for line in rest]
        )
        kept = text("CUE 1", "CHAN 2@50", "CUE 2", "CHAN 3@FL 2@50", "CUE 4", "CHAN 1@FL 2@50",
                    "CUE 5", "CHAN 1@FL")
        self.assertEqual(levels_of(shows.read(kept)), levels_of(show))


class Lines(LossTest):
    """Lines that cannot be read, or that ended too early."""

    def test_dark_cues(self):
        """A cue without a channel is lost where lines below it were not read, and in doubt where it
        may be a blackout."""
        dark = "lost: cue 1 comes out dark, though lines stand below it"
        self.assertLost(
            ("CUE 1", "UP 5", "CHAN 1@x"),
            f"lines 1, 3: {dark}", "line 3: lost: cue 1: CHAN 1@x cannot be read",
        )  # fmt: skip
        self.assertLost(
            ("CUE 1", "UP 5", "CHAN"),
            f"lines 1, 3: {dark}", "line 3: lost: cue 1: CHAN without a channel",
        )  # fmt: skip
        found, _ = self.convert("CUE 1", "UP 5", "TEXT blackout")
        told = "in doubt: cue 1 lists no channel: right for a blackout"
        self.assertTold(found, f"line 1: {told}")
        done, _ = self.run_tool(text("CUE 1", "UP 5", *BOUNDS))
        self.assertEqual(0, done.returncode)

    def test_keywords(self):
        """A keyword that is misspelled or cut, where light depends on it."""
        for line, meant in (
            ("CHN 2@FL", "CHAN"), ("CH", "CHAN, PATCH"), ("PATC 1 1<1@FL", "PATCH"),
            ("AN 2@FL", "CHAN"),
        ):  # fmt: skip
            told = f"line 3: lost: cue 1: {line}: left out ({meant}?)"
            self.assertLost(("CUE 1", "CHAN 1@FL", line), told)
        none = "left out, since it begins with no keyword"
        self.assertLost(
            ("CUE 1", "CHAN 1@FL", "UP 5", "2@FL"), f"line 4: lost: cue 1: 2@FL: {none}"
        )
        self.assertLost(("FL", "CUE 1", "CHAN 1@FL"), f"line 1: lost: FL: {none}")
        for line in ("CU 2", "SUBB 3", "ROUP 1"):
            found, _ = self.convert("CUE 1", "CHAN 1@FL", line, "CHAN 2@FL")
            told = rf"line 3: lost: cue 1: {line}: left out \(\w+\?\); the lines after it went to"
            self.assertRegex(self.losses(found)[0], rf"^{told} cue 1$")

    def test_lost_line_ends(self):
        """Two lines on one: what stands behind the first is lost, or read behind a CR."""
        for lines, told in (
            (("CUE 1 CHAN 2@FL",), "line 1: lost: words after CUE 1: CHAN 2 FL"),
            (("CUE 1", "UP 5 1 CHAN 2@FL"), "line 2: lost: cue 1: words after UP: CHAN 2 FL"),
            (("CUE 1", "TEXT xCHAN 2@FL"), "line 2: lost: cue 1: its label holds CHAN 2@FL:"),
            (("CUE 1", "$$x CHAN 2@FL"), "line 2: lost: cue 1: $$x holds CHAN 2@FL:"),
            (("CONSOLE xCUE 1", "CUE 1"), "line 1: lost: CONSOLE xCUE 1:"),
            (("CLEAR ALL CUE 1", "CUE 1"), "line 1: lost: CLEAR ALL CUE 1:"),
        ):
            with self.subTest(lines):
                found, _ = self.convert(*lines, "CHAN 1@FL")
                self.assertTrue(self.losses(found)[0].startswith(told), self.losses(found))
        found, _ = self.convert("CUE 1", "! xCHAN 2@FL", "CHAN 1@FL")
        self.assertTold(
            found, "line 2: in doubt: a comment holds CHAN 2@FL: is a line end missing?"
        )
        found, show = self.convert("CUE 1\rUP 5\r CHAN 1@FL\rCUE 2", "CHAN 2@FL\r3@FL")
        self.assertEqual({1: {1: 255}, 2: {2: 255, 3: 255}}, levels_of(show))
        self.assertTold(found, "line 1: changed: a CR inside a line, read as a line end")

    def test_records_that_run_together(self):
        """What a missing CUE line leaves: lines and channels that stand twice, numbers out of
        order."""
        cue = ("UP 5", "CHAN 1@FL 2@50")
        found, _ = self.convert("CUE 1", *cue, "UP 6", "CHAN 1@FL 2@30")
        missing = "line is missing between them"
        self.assertTold(
            found,
            f"lines 2, 4: lost: cue 1 has two UP lines: a CUE or PART {missing}",
            "line 5: lost: cue 1 has channel 2 at two levels: the last counts",
            "line 5: in doubt: cue 1 has channel 1 twice",
        )
        found, _ = self.convert("SUB 1", *cue, "UP 6", "CHAN 3@FL")
        told = f"lines 2, 4: lost: submaster 1 has two UP lines: a SUB or GROUP {missing}"
        self.assertEqual([told], self.losses(found))
        found, _ = self.convert("CUE 1", "UP 5", "UP 6", "CHAN 1@FL 1@50 2@FL 2@FL")
        self.assertTold(
            found,
            "line 4: lost: cue 1 has channel 1 at two levels: the last counts",
            "lines 2-3: in doubt: cue 1 has two UP lines: the last counts",
            "line 4: in doubt: cue 1 has channel 2 twice",
        )
        found, _ = self.convert("CUE 10", *cue, "CUE 1", *cue)
        self.assertTold(found, "line 4: in doubt: cue 1 stands below cue 10: is its number cut?")
        found, _ = self.convert("CUE 1", *cue, "CLEAR CUES", "CUE 2", *cue)
        self.assertTold(found, "lines 1, 4: lost: 1 cue above CLEAR CUES")
        found, _ = self.convert("CUE 1", "CHAN 1@FL,")
        told = "cue 1: CHAN ends with a comma: is its end missing?"
        self.assertTold(found, f"line 2: in doubt: {told}")

    def test_pages(self):
        """Cues of another page are lost, unless the page was chosen."""
        lines = ("CUE 1 1", "CHAN 1@FL", "CUE 2 2", "CHAN 2@FL")
        self.assertLost(lines, "lines 3-4: lost: cues of page 2")
        found, show = self.convert(*lines, cue_list=1)
        self.assertTold(found, "lines 3-4: left out: cues of page 2 (--list 1)")
        self.assertEqual({1: {1: 255}}, levels_of(show))


class Readings(LossTest):
    """What is read more freely than a show file is, and what cues keep."""

    def test_free_spellings(self):
        """Each is told as changed: all are faults of a show file."""
        for lines, word, anew in (
            (("CUE 1.", "CHAN 1@FL"), "1.", "1"),
            (("CUE 4.0000", "CHAN 1@FL"), "4.0000", "4"),
            (("CUE 1", "CHAN 1@1."), "1.", "1"),
            (("CUE 1", "CHAN 1@50.00"), "50.00", "50"),
            (("CUE 1", "CHAN 0000000001@50"), "0000000001", "1"),
            (("GROUP 5.0", "CHAN 1@FL"), "5.0", "5"),
            (("CUE 1", "CHAN 1@FL", "LINK 2.", "CUE 2", "CHAN 1@FL"), "2.", "2"),
        ):
            with self.subTest(lines):
                if lines[2:3] != ("LINK 2.",):
                    self.assertIsInstance(shows.read(text(*lines)), str)
                found, show = self.convert(*lines)
                told = f"1 word respelled, as {word} to {anew}: the values are the same"
                changed = [line for line in found.report.lines() if CHANGED in line]
                self.assertRegex("\n".join(changed), rf"^line \d: changed: {re.escape(told)}$")
                again, _ = self.convert(found.show)
                self.assertEqual([], [x for x in again.report.lines() if CHANGED in x])
        found, _ = self.convert("PATCH", "CUE 1", "CHAN 1@FL")
        self.assertTold(
            found, "line 1: lost: PATCH without a dimmer",
            "line 1: changed: PATCH without a page: page 1",
        )  # fmt: skip

    def test_tracking_is_guessed(self):
        """By levels of 0 for lit channels, against levels that repeat; the looks are those of the
        same cues written out."""
        content = (EXPORTS / "tracking.asc").read_bytes()
        looks = text(
            "CUE 1", "CHAN 1@50 2@1", "CUE 2", "CHAN 1@50 3@FL", "CUE 3", "CHAN 3@FL 4@FL 5@50",
            "CUE 4", "CUE 5", "CHAN 1@FL",
        )  # fmt: skip
        lit = lambda show: {
            n: {channel: byte for channel, byte in levels.items() if byte}
            for n, levels in levels_of(show).items()
        }
        found, show = self.convert(content)
        self.assertEqual(lit(shows.read(looks)), lit(show))
        guess = "guessed by 5 levels of 0 for a lit channel against none that repeats the level"
        told = f"changed: each cue keeps the channels that it does not list ({guess} before;"
        self.assertIn(f"{told} --no-tracking refuses); more light in cues 2, 3",
                      found.report.lines())
        refused, show = self.convert(content, is_tracking=False)
        self.assertEqual({3: 255}, lit(show)[2])
        self.assertNotIn("guessed", "\n".join(refused.report.lines()))
        done, told = self.run_tool(content, "--no-tracking")
        self.assertEqual((0, refused.show.decode("latin-1")), (done.returncode, done.stdout))

    def test_whole_looks_are_not_guessed(self):
        """Levels of 0 are no sign where as many levels repeat, or where nothing would differ; and
        a converted show is converted to itself."""
        repeats = ("CUE 1", "CHAN 1@FL 2@FL", "CUE 2", "CHAN 1@FL 2@0", "CUE 3", "CHAN 3@FL")
        found, show = self.convert(*repeats)
        self.assertEqual({3: 255}, show.cues[3000].levels)
        signs = "1 level of 0 for a lit channel against 1 that repeats the level before"
        self.assertEqual(signs, found.tracking)
        _, told = self.run_tool(text(*repeats, *BOUNDS))
        self.assertIn(f"in doubt: a cue is a whole look here ({signs}); ", "\n".join(told))
        found, _ = self.convert("CUE 1", "CHAN 1@FL", "CUE 2", "CHAN 1@0 2@FL")
        self.assertTold(found)
        once, _ = self.convert((EXPORTS / "tracking.asc").read_bytes())
        again, _ = self.convert(once.show)
        self.assertEqual(once.show.split(b"\n")[2:], again.show.split(b"\n")[2:])
        self.assertFalse(again.report.has(CHANGED))

    def test_labels(self):
        """The label of a cue says what is not played: the times of its parts, and its LINK."""
        content = (EXPORTS / "tracking.asc").read_bytes()
        found, show = self.convert(content)
        self.assertEqual(b"rain [LINK 5] [part 1 (1, 4): UP 4]", show.label("cues", 3000))
        self.assertTrue(found.report.has(NOT_PLAYED))
        self.assertFalse(found.report.has(LOST, LEFT_OUT))
        self.assertEqual(0, run_tool("convert", EXPORTS / "tracking.asc").returncode)
        again, once = self.convert(found.show)
        self.assertEqual(show.label("cues", 3000), once.label("cues", 3000))


if __name__ == "__main__":
    unittest.main()
