"""The rules of `tools/convert`, each by itself, and the spellings that it reads."""

import unittest

from conversions import ConvertTest
from expected import show as shows

from cueplayer_tools.convert.conversion import free_numbers
from cueplayer_tools.convert.exports import forms as export_forms
from cueplayer_tools.convert.exports.words import is_near
from cueplayer_tools.convert.report import CHANGED, DOUBT, LEFT_OUT, LOST, NOT_PLAYED

COMMA = "is a time and a delay: is the comma a point?"
PATCH = "PATCH 1 1<1@FL 2<2@FL 3<3@FL"


class Rules(ConvertTest):
    """Each rule by itself."""

    def assertLines(self, lines, levels, *told):
        """Cue 1 has these levels, and this is told; line 1 opens it, line 2 and so on are
        given."""
        found, show = self.convert("CUE 1", *lines)
        self.assertEqual(levels, show.cues[1000].levels)
        self.assertTold(found, *told)

    def test_levels(self):
        for word, byte in (("FULL", 255), ("50%", 128), ("33.3", 85), ("99.9%", 255), ("0.1", 0)):
            with self.subTest(word):
                found, show = self.convert("CUE 1", f"CHAN 1@{word}")
                self.assertEqual({1: byte}, show.cues[1000].levels)
                anew = export_forms.LEVEL_WORDS[byte]
                told = f"1 word respelled, as {word} to {anew}: the values are the same"
                told = f"level {word} to {anew}" if "." in word else told
                self.assertTold(found, f"line 2: changed: {told}")

    def test_other_scales(self):
        """A level above 100, or with hex digits and no H: then all others may have been
        misread."""
        scale = "in doubt: a level of another scale: if all are"
        for word, name in (("200", "from 0 to 255"), ("7f", "hexadecimal without an H")):
            lost = f"line 2: lost: cue 1: CHAN 2@{word} cannot be read"
            told = f"line 2: {scale} {name}, they were misread as percent"
            self.assertLines([f"CHAN 1@FL 2@{word}"], {1: 255}, lost, told)
            lost = f"line 2: lost: cue 1: CHAN 2 {word} cannot be read"
            self.assertLines([f"CHAN 1 FL 2 {word}"], {1: 255}, lost, told)
        for word in ("256", "x", "7fa", "G0"):
            lost = f"line 2: lost: cue 1: CHAN 2@{word} cannot be read"
            self.assertLines([f"CHAN 1@FL 2@{word}"], {1: 255}, lost)

    def test_pairs(self):
        one = {1: 255, 3: 128}
        self.assertLines(["CHAN 1@FL 2@ 3@50"], one, "line 2: lost: cue 1: CHAN 2@ cannot be read")
        lost = "line 2: lost: cue 1: CHAN x/20 cannot be read"
        self.assertLines(["CHAN 1/FL,x/20,3/50"], one, lost)
        self.assertLines(
            ["CHAN 1 @ FL 2@300 3@50"], one, "line 2: lost: cue 1: CHAN 2@300 cannot be read"
        )
        lost = "line 2: lost: cue 1: CHAN 2 x cannot be read"
        self.assertLines(["CHAN 1 FL 2 x 3 50"], one, lost)
        dark = "lines 1-2: lost: cue 1 comes out dark, though lines stand below it"
        told = "line 2: lost: cue 1: CHAN 1 FL 2: a word is missing, so all of it cannot be read"
        self.assertLines(["CHAN 1 FL 2"], {}, dark, told)
        self.assertLines(["CHAN 0@FL 1@FL 3@50"], one, "line 2: lost: cue 1: there is no channel 0")
        self.assertLines(["CHAN 1@FL", "CHAN 3@50"], one)
        self.assertLines(["CHAN"], {}, dark, "line 2: lost: cue 1: CHAN without a channel")

    def test_marks_that_say_otherwise(self):
        """Words that fall into place are read so, as the program does; and the marks are told."""
        told = "read word by word, though its marks group it differently"
        self.assertLines(
            ["CHAN 1@ 2@ 3@FL"], {1: 5, 3: 255}, f"line 2: in doubt: CHAN 1@ 2@ 3@FL: {told}"
        )
        levels = {1: 255, 2: 128, 3: 51, 4: 77, 5: 102}
        self.assertLines(["CHAN 1=FL 2/50", "CHAN 3 20", "CHAN 4,30,5,40"], levels)
        patches = {"PATCH 1<1 2<2": {2: (1, 5)}, "PATCH 1 1<2 3<4 5<6": {2: (1, 8), 5: (4, 15)}}
        for line, patch in patches.items():
            found, show = self.convert(line)
            self.assertEqual(patch, show.patch)
            self.assertIn(f"line 1: in doubt: {line}: {told}", found.report.lines())
        found, show = self.convert("PATCH 1 1<1@FL,2<2@FL", "PATCH 1 3 3 FL", "PATCH 1")
        self.assertTold(found, "line 3: lost: PATCH 1 without a dimmer")

    def test_continuation(self):
        """Lines that begin with a number belong to the CHAN or PATCH line above, comments
        between."""
        joined = "lines 3, 5: changed: joined to the CHAN line above"
        self.assertLines(["CHAN 1@FL", "2@50", "! comment", "3@H10 4@"], {1: 255, 2: 128, 3: 16},
                         "line 5: lost: cue 1: CHAN 4@ cannot be read", joined)
        found, show = self.convert("PATCH 1", "1<1@FL", " 2<2@50", "SUB 1", "1<3@FL")
        self.assertEqual({1: (1, 255), 2: (2, 128)}, show.patch)
        self.assertTold(
            found,
            "line 5: lost: submaster 1: 1<3@FL: left out, since it begins with no keyword",
            "line 4: in doubt: submaster 1 has no channel",
            "lines 2-3: changed: joined to the PATCH line above",
        )

    def test_patch(self):
        for line, patch, told in (
            ("PATCH 1<1@FL 0<2@FL", {1: (1, 255)}, "changed: PATCH without a page: page 1"),
            ("PATCH 1 1<1 2<2@50", {1: (1, 255), 2: (2, 128)}, "changed: 1<1 has no level: full"),
            (
                "PATCH 1 1<1@FL 2<9000@50",
                {1: (1, 255)},
                "lost: there is no dimmer 9000, of channel 2",
            ),
            ("PATCH 1 1<1@FL 2<x@50", {1: (1, 255)}, "lost: PATCH 2<x@50 cannot be read"),
            (
                "PATCH 1 1 1 FL 2",
                {},
                "lost: PATCH 1 1 FL 2: a word is missing, so all of it cannot be read",
            ),
        ):
            with self.subTest(line):
                found, show = self.convert("IDENT 3:0", line, "CUE 1", "CHAN 1@FL")
                self.assertEqual(patch, show.patch)
                self.assertTold(found, f"line 2: {told}")
        found, show = self.convert("PATCH 1 1<1@FL", "PATCH 1 0<1@FL", "PATCH 1 1<2@FL")
        self.assertEqual({2: (1, 255)}, show.patch)

    def test_times(self):
        for line, rises, told in (
            ("UP 2.345", (2350, 0), ["line 2: changed: time 2.345 to 2.35"]),
            ("UP 1:00:05", (3605000, 0), None),
            ("UP 1:75", (135000, 0), None),
            ("UP 5. 0.250", (5000, 250), None),
            (
                "UP 6000",
                (5999990, 0),
                ["line 2: not played: cue 1: UP 6000: 6000 to the longest time, 5999.99"],
            ),
            ("UP 1:39:59.99", (5999990, 0), None),
            ("UP M", (0, 0), ["line 2: not played: cue 1: UP M: M is not a time"]),
            ("UP 3 M", (3000, 0), ["line 2: not played: cue 1: UP 3 M: M is not a time"]),
            ("UP", (0, 0), ["line 2: not played: cue 1: UP without a time"]),
            ("UP 3 4 DOWN 5", (3000, 4000), ["line 2: not played: cue 1: words after UP: DOWN 5"]),
            ("UP 0,5", (0, 5000), [f"line 2: in doubt: UP 0,5 {COMMA}"]),
        ):
            with self.subTest(line):
                found, show = self.convert("CUE 1", line, "CHAN 1@FL")
                self.assertEqual(rises, show.cues[1000].rises())
                if told is not None:
                    self.assertTold(found, *told)
                else:
                    self.assertFalse(found.report.has(LOST, NOT_PLAYED, CHANGED, DOUBT, LEFT_OUT))

    def test_numbers(self):
        """Of groups, submasters and channels out of range: free ones, each told; of cues none."""
        found, show = self.convert(
            "GROUP 2", "CHAN 1@FL", "GROUP 501", "CHAN 2@FL", "GROUP 0", "CHAN 3@FL", "SUB 100",
            "CHAN 1@FL",
            "SUB 101", "CHAN 2@FL", "CUE 10000", "CHAN 1@FL", "CUE x", "CUE",
        )  # fmt: skip
        self.assertEqual({2: {1: 255}, 3: {3: 255}, 4: {2: 255}}, show.groups)
        self.assertEqual({1: {2: 255}, 100: {1: 255}}, show.subs)
        self.assertTold(
            found,
            "lines 11-12: lost: CUE 10000: not a cue number",
            "line 13: lost: CUE x: not a cue number",
            "line 14: lost: CUE: not a cue number",
            "line 5: in doubt: group 0 stands below group 501: is its number cut?",
            "line 3: changed: group 501 to group 4",
            "line 5: changed: group 0 to group 3",
            "line 9: changed: submaster 101 to submaster 1",
        )

    def test_channels_above(self):
        """They are mapped where they are patched or nothing is, and left out where no dimmer is
        theirs."""
        cue = ("CUE 1", "CHAN 3@FL 9001@50")
        found, show = self.convert(*cue)
        self.assertEqual({3: 255, 4: 128}, show.cues[1000].levels)
        self.assertTold(found, "line 2: changed: channel 9001 to channel 4")
        found, show = self.convert(*cue, PATCH)
        self.assertEqual({3: 255}, show.cues[1000].levels)
        told = "channel 9001 is left out: no dimmer is patched to it"
        self.assertTold(found, f"line 2: in doubt: {told}")
        found, show = self.convert(*cue, PATCH, "PATCH 1 9001<7@FL")
        self.assertEqual({3: 255, 4: 128}, show.cues[1000].levels)
        self.assertEqual((4, 255), show.patch[7])
        self.assertTold(found, "lines 2, 4: changed: channel 9001 to channel 4")

    def test_no_free_number(self):
        subs = [line for n in range(1, 101) for line in (f"SUB {n}", "CHAN 1@FL")]
        found, show = self.convert(*subs, "SUB 101", "CHAN 2@FL")
        self.assertEqual(100, len(show.subs))
        self.assertTold(found, "line 201: lost: submaster 101: no number is free")

    def test_parts(self):
        """Their times where they agree, and else those of the last lines, with what is lost."""
        agree = ("UP 5", "PART 1", "CHAN 1@FL", "PART 2", "UP 5.00", "CHAN 2@FL")
        found, show = self.convert("CUE 1", *agree)
        self.assertEqual((5000, 0), show.cues[1000].rises())
        self.assertEqual({1: 255, 2: 255}, show.cues[1000].levels)
        self.assertFalse(found.report.has(LOST, NOT_PLAYED, CHANGED))
        other = ("PART 1", "UP 5", "CHAN 1@FL 2@FL", "PART 2", "UP 60 10", "CHAN 3@FL")
        found, show = self.convert("CUE 1", *other)
        self.assertEqual((60000, 10000), show.cues[1000].rises())
        told = "cue 1: UP 5 of part 1 (channels 1-2): all channels take UP 60 10"
        self.assertTold(found, f"lines 2-3: not played: {told}, and the label says so")
        self.assertEqual(b"[part 1 (1-2): UP 5]", show.label("cues", 1000))
        found, show = self.convert("CUE 1", "UP 5", "CHAN 1@FL", "PART 2", "UP 9")
        self.assertEqual((5000, 0), show.cues[1000].rises())
        self.assertTold(
            found, "line 1: changed: cue 1: the times of parts without channels are left out"
        )

    def test_links(self):
        found, show = self.convert(
            "CUE 1", "LINK 2", "CUE 2", "LINK 1", "CUE 3", "LINK 1", "CUE 2", "LINK x"
        )
        self.assertTold(
            found,
            "line 4: not played: LINK 1 of cue 2: GO goes to 3, and the label says so",
            "line 6: not played: LINK 1 of cue 3: GO goes nowhere, and the label says so",
            "line 8: not played: cue 2: LINK x: no cue number",
            "lines 1, 3, 5: in doubt: cues 1, 2, 3 list no channel: right for a blackout",
            "lines 3, 7: in doubt: cue 2 is opened again: its lines count together",
            "line 2: left out: LINK to the next cue",
        )
        self.assertNotIn(b"LINK 2", found.show)
        self.assertEqual(2, found.show.count(b"\nLINK 1\n"))
        labels = [show.label("cues", n) for n in sorted(show.cues)]
        self.assertEqual([b"", b"[LINK 1]", b"[LINK 1]"], labels)

    def test_pages(self):
        """Page 1, or the only one; or the list that is asked for."""
        lines = ("CUE 1 1", "CHAN 1@10", "CUE 1 2", "CHAN 1@20", "CUE 2 2", "CHAN 1@30")
        found, show = self.convert(*lines)
        self.assertEqual({1000: {1: 26}}, {n: cue.levels for n, cue in show.cues.items()})
        self.assertTold(found, "lines 3-6: lost: cues of page 2")
        found, show = self.convert(*lines, cue_list=2)
        self.assertEqual(
            {1000: {1: 51}, 2000: {1: 77}}, {n: cue.levels for n, cue in show.cues.items()}
        )
        found, show = self.convert(*lines[2:])
        self.assertEqual([1000, 2000], sorted(show.cues))
        self.assertTold(found, "lines 1, 3: changed: page 2 of CUE to page 1")

    def test_tracking(self):
        lines = ("CUE 1", "CHAN 1@50 2@FL", "CUE 3", "CHAN 2@0", "CUE 2", "CHAN 3@10")
        _, show = self.convert(*lines, is_tracking=True)
        levels = [show.cues[n].levels for n in (1000, 2000, 3000)]
        self.assertEqual(
            [{1: 128, 2: 255}, {1: 128, 2: 255, 3: 26}, {1: 128, 2: 0, 3: 26}], levels
        )

    def test_names(self):
        found, show = self.convert('CUE 4 "Bahnhof; 2"', 'CUE 5 1 "x"', "CUE 6 y z")
        labels = [show.label("cues", n) for n in (4000, 5000, 6000)]
        self.assertEqual([b"Bahnhof; 2", b"x", b""], labels)
        self.assertIn("line 3: lost: words after CUE 6: y z", found.report.lines())

    def test_makers_records(self):
        """They are left out, with all that stands in them; lost where they hold CHAN lines, or by
        their names what the show has from no other line."""
        found, show = self.convert(
            "$Effect 1", "CHAN 1@FL", "$$Step 1", "$Patch 1 1", "$$Note x", "Text y", "CUE 1",
            "$$Time 3",
        )  # fmt: skip
        self.assertEqual({}, show.patch)
        outside = "if they are no light of the show, convert with --outside Effect"
        own = "of the maker's own"
        self.assertTold(
            found,
            f"lines 1-3: lost: $Effect records, {own}, with the levels below them: {outside}",
            f"lines 4-6: lost: $Patch records, {own}: no PATCH line has a dimmer",
            "line 7: in doubt: cue 1 lists no channel: right for a blackout",
            f"line 8: left out: $$Time, {own}",
        )

    def test_clear(self):
        found, show = self.convert(
            "CUE 1", "CLEAR CUE 1", "SUB 1", "CHAN 1@FL", "CLEAR CUES", "CUE 2", "CHAN 1@FL"
        )
        self.assertEqual([2000], sorted(show.cues))
        self.assertEqual([1], sorted(show.subs))
        told = (
            "lines 1, 5: lost: 1 cue above CLEAR CUES",
            "line 2: left out: CLEAR CUE 1: clears no table",
        )
        self.assertTold(found, *told)

    def test_other_lines(self):
        lines = ("CHAN 1@FL", "IDENT 2:0", "MACRO 7", "CUE 1", "UPP 5", "CHAN 1@FL", "MACRO 8")
        found, _ = self.convert(*lines)
        self.assertTold(
            found,
            "line 1: lost: CHAN lines that belong to no record",
            "line 2: in doubt: IDENT 2:0 to IDENT 3:0: read as of that version",
            "line 5: in doubt: cue 1: UPP 5: left out (UP?)",
            "line 7: in doubt: cue 1: unknown keyword MACRO: left out",
            "line 3: left out: unknown keyword MACRO",
        )


class Forms(unittest.TestCase):
    """Spellings, against the forms of the page on show files where those have them."""

    def test_levels(self):
        for word in ("", "x", "101", "100.1", "H", "H123", "-1", "5O", "50%%", "%", ".5"):
            self.assertIsNone(export_forms.level(word), word)
        for word in ("0", "00", "100", "1", "fl", "FF", "Fl", "hF", "H0f", "hff"):
            self.assertEqual((shows.level(word.encode()), False, False), export_forms.level(word))

    def test_times(self):
        for word in ("", ".", "x", "5s", "-1", "1:", ":5", "1:2:3:4", "5,5", "1.2.3"):
            self.assertIsNone(export_forms.time(word), word)
        for word in ("0", "5", "5.5", ".5", ".05", "1:30", "99:59.99", "5999.99", "1:5.5"):
            found = export_forms.time(word)
            self.assertEqual(export_forms.Time(shows.time(word.encode())), found)
            self.assertTrue(export_forms.is_plain_time(word))

    def test_cue_numbers(self):
        for word in ("1", "1.5", ".25", "9999.999", "007", "1.50"):
            self.assertEqual(shows.cue_number(word.encode()), export_forms.cue_number(word), word)
        for word in ("0", ".", "", "10000", "1.2345", "x", "1e3", "1.2.3"):
            self.assertIsNone(export_forms.cue_number(word), word)
        self.assertEqual(
            (1000, 1500), (export_forms.cue_number("1."), export_forms.cue_number("1.50000"))
        )

    def test_free_numbers(self):
        self.assertEqual({900: 4, 901: 5}, free_numbers([901, 900], [1, 3], 5))
        self.assertEqual({7: 5, 8: 1, 9: 2}, free_numbers([9, 8, 7, 10], [3, 4], 5))

    def test_near_words(self):
        """An edit apart, or two letters swapped."""
        for word in ("CEU", "CUEE", "CU", "CUR", "UCE"):
            self.assertTrue(is_near(word, "CUE"), word)
        for word in ("CUE", "EUC", "CUEST", "C", "CHAN"):
            self.assertFalse(is_near(word, "CUE"), word)


if __name__ == "__main__":
    unittest.main()
