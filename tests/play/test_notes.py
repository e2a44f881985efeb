"""The second reader of notes, `expected.notes`, by rows worked out by hand."""

import random
import time
import unittest

import changes
from expected import notes as expected
from expected import show as shows
from program import TOP, text

PATCH = "PATCH 1 1<1@FL 2<2@FL 3<3@FL"


class Notes(unittest.TestCase):
    maxDiff = 2000

    def assertNotes(self, lines, *told, patch=True):
        """The notes on these lines, of which the first is a patch of channels 1 to 3."""
        lines = (PATCH, *lines) if patch else lines
        self.assertEqual([f"note: {each}" for each in told], expected.notes(text(*lines)))

    def test_nothing_to_tell(self):
        cues = ("CUE 1", "UP 5 2", "CHAN 1@FL", "LINK 2", "PART 1", "CUE 2", "CHAN 2@FL", "LINK 3")
        rest = ("CUE 3", "CHAN 3@FL", "SUB 1", "UP 0,5", "MACRO 7", "$$X", "$Y", "CEU 7", "1 2")
        self.assertNotes([*cues, *rest])

    def test_faulty_show(self):
        self.assertIsNone(expected.notes(text("CEU 7", "CUE x")))

    def test_encodings(self):
        """Before all others."""
        found = expected.notes(b"\xef\xbb\xbfx\nCEU 7\n" + text(PATCH))
        mark = (
            "note: the file begins with a byte order mark, read as part of its first word: "
            "save it as ASCII"
        )
        skipped = (
            "note: line 2: CEU 7: CUE? It is skipped, and what stands below it belongs "
            "to no record"
        )
        self.assertEqual([mark, skipped], found)

    def test_links(self):
        self.assertNotes(
            [
                "CUE 1",
                "CHAN 1@1",
                "LINK 2",
                "LINK 3",
                "CUE 2",
                "LINK x",
                "CUE 3",
                "CHAN 1@3",
                "LINK 1 5",
            ],
            "line 5: cue 1: LINK 3 is not followed: GO goes to 2",
            "line 7: cue 2: LINK without a cue number",
            "line 10: cue 3: LINK 1 is not followed: GO goes nowhere",
        )
        gone = ["CUE 1", "LINK 7", "CLEAR CUES", "CUE 2", "CHAN 1@1"]
        self.assertNotes(gone)

    def test_parts(self):
        cue = ("CUE 4", "PART 1", "UP 5", "CHAN 1@50 2@50", "PART 2", "UP 60 10", "CHAN 3@70")
        self.assertNotes(cue, "line 3: cue 4, part 1: channels 1 2 take UP 60 10, not UP 5")
        # The cue's own times hold for a part without any, and agree with those of the other.
        self.assertNotes(
            ["CUE 4", "UP 5", "PART 1", "CHAN 1@50", "PART 2", "UP 5.00", "CHAN 2@FL"]
        )
        self.assertNotes(
            ["CUE 4", "CHAN 1@FL", "PART 2", "DOWN 3", "CHAN 2@5", "PART 3", "UP 9"],
            "line 2: cue 4, before its parts: channel 1 takes UP 9, DOWN 3, not no time",
            "line 4: cue 4, part 2: channel 2 takes UP 9, DOWN 3, not DOWN 3",
        )

    def test_commas(self):
        self.assertNotes(
            [
                "CUE 1",
                "UP 0,5",
                "DOWN 1, 5",
                "FOLLOWON 2,5 ! 3,5",
                "CHAN 1@FL,2@FL",
                "DOWN 3 ! 1,2",
            ],
            "line 3: UP 0,5: the comma parts two words: time 0, delay 5; write a point for a "
            "decimal",
            "line 5: FOLLOWON 2,5 ! 3,5: the comma parts two words: time 2; write a point for "
            "a decimal",
        )

    def test_opened_again(self):
        self.assertNotes(
            ["CUE 5", "CHAN 1@1", "CUE 5", "SUB 2", "CUE 5.0", "SUB 02", "GROUP 1", "CUE 5 2"],
            "line 4: cue 5 is opened again, as on line 2: their lines count together",
            "line 6: cue 5 is opened again, as on line 2: their lines count together",
            "line 7: submaster 2 is opened again, as on line 5: their lines count together",
        )
        self.assertNotes(["CUE 5", "CLEAR CUES", "CUE 5", "CHAN 1@1"])

    def test_misspelt(self):
        cue = ("CUE 6", "CHAN 1@1", "CEU 7", "CHAN 2@1", "CHNA 3@1")
        skipped = "and what stands below it belongs to a record that is skipped"
        self.assertNotes(
            [*cue, "SUB 2 2", "GRUOPS 1", "CLEAR x", "FOLOWN 3", "IDEN"],
            "line 4: CEU 7: CUE? It is skipped, and what stands below it belongs to cue 6",
            "line 6: CHNA 3@1: CHAN? It is skipped",
            f"line 8: GRUOPS 1: GROUP? It is skipped, {skipped}",
            "line 10: FOLOWN 3: FOLLOWON? It is skipped",
            "line 11: IDEN: IDENT? It is skipped",
        )

    def test_distance(self):
        for one, other, steps in (
            (b"CEU", b"CUE", 1), (b"CUE", b"CUE", 0), (b"", b"UP", 2), (b"CA", b"ABC", 3),
            (b"PACTH", b"PATCH", 1), (b"GRP", b"GROUP", 2), (b"MACRO", b"PATCH", 4),
        ):  # fmt: skip
            self.assertEqual(
                (steps, steps), (expected.distance(one, other), expected.distance(other, one))
            )

    def test_patched_again(self):
        self.assertNotes(
            ["PATCH 1 2<3@FL", "PATCH 1 3<3@50 3<2@FL 0<2@FL 1<2@FL 1<1@50"],
            "line 2: dimmer 3 is patched to channel 2, and on line 1 to channel 3: the last counts",
            "line 3: dimmer 3 is patched to channel 3, and on line 2 to channel 2: the last counts",
            "line 3: dimmer 2 is patched to channel 3, and on line 1 to channel 2: the last counts",
        )
        self.assertNotes(["CLEAR PATCH", "PATCH 1 2<3@FL"])

    def test_numbered_lines(self):
        patch = ("PATCH 1", "1<1@FL", "  2<2@FL ! x", "! comment", "3<3@FL")
        self.assertNotes(
            [*patch, "CUE 1", "CHAN 1@FL", "2@FL", "MACRO", "3@FL"],
            "lines 3 4 6: skipped, as they begin with a number: join them to the PATCH line 2",
            "line 9: skipped, as it begins with a number: join it to the CHAN line 8",
        )

    def test_patch(self):
        none = "no dimmer is patched: no universe is sent"
        self.assertNotes(["CUE 1"], none, patch=False)
        dark = "cues of which no channel is patched: 1"
        self.assertNotes(
            ["CUE 1", "CHAN 9@FL"], dark, "channels of cues that are patched nowhere: 9"
        )

    def test_long_fades(self):
        self.assertNotes(
            ["CUE 1", "CHAN 1@1", "UP 3600", "CUE 2", "UP 9", "DOWN 50:00 10:00.01"],
            "line 7: cue 2: DOWN 3000 600.01 lasts more than an hour",
        )

    def test_equal_cues(self):
        self.assertNotes(
            [
                "CUE 1",
                "CHAN 1@FL",
                "CUE 3",
                "CHAN 1@100 2@0",
                "CUE 2",
                "CHAN 1@HFF",
                "CUE 4",
                "CUE 5",
            ],
            "cues that look as the one before: 2 3 5",
        )

    def test_changed_shows(self):
        """Each changed show has notes, or a fault where the second reader of shows finds one."""
        r = random.Random(1)
        bases = [file.read_bytes() for file in sorted((TOP / "examples").rglob("*.asc"))]
        until = time.process_time() + 1
        while time.process_time() < until:
            content = changes.with_changes(r, r.choice(bases), changes.OF_TEXTS, 8)
            if len(content) <= shows.LONGEST:
                self.assertEqual(
                    isinstance(shows.read(content), str), expected.notes(content) is None
                )


if __name__ == "__main__":
    unittest.main()
