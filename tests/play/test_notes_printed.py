"""The notes and faulty lines that `explain` prints, and what `check --strict` refuses."""

import os
import random
import subprocess
import time
import unittest

import changes
from expected import faults, notes
from expected import show as shows
from program import PROGRAM, TOP, ProgramTest, run, text

BASES = [file.read_bytes() for file in sorted((TOP / "examples").rglob("*.asc"))]
SECONDS = 6
# So many changed shows, by hand, in place of as many as there is time for.
SHOWS = int(os.environ.get("CUEPLAYER_SHOWS", "0"))


def explain(content):
    """The status of `explain`, and the lines that it prints."""
    outcome = run("explain", "-", stdin=content)
    return outcome.status, outcome.out.decode("ascii").splitlines()


def expected_output(content):
    """The same by the second readers: skipped lines and notes, or the faulty lines."""
    lines = notes.explanation(content)
    return (3, faults.faults(content)) if lines is None else (0, lines)


class Printed(ProgramTest):
    maxDiff = 3000

    def assertExplained(self, content):
        self.assertEqual(expected_output(content), explain(content), content)

    def assertStrict(self, content):
        """A strict check refuses exactly what has weight."""
        if notes.notes(content) is not None:
            outcome = run("check", "-", "--strict", stdin=content)
            refused = (3, b"show: Doubtful\n") if notes.is_doubtful(content) else (0, b"")
            self.assertEqual(refused, (outcome.status, outcome.err), content)

    def test_changed_shows(self):
        """As many as there is time for, of all examples and of shows of slips."""
        r = random.Random(7)
        until, tried = time.monotonic() + SECONDS, 0
        while tried < SHOWS or not SHOWS and time.monotonic() < until:
            tried += 1
            content = changes.with_changes(r, r.choice(BASES), changes.OF_TEXTS, 8)
            if len(content) <= shows.LONGEST:
                self.assertExplained(content)
                self.assertStrict(content)

    def test_encoding_stands_first(self):
        outcome = run("explain", "-", stdin=b"\xef\xbb\xbfx\nCEU 7\n")
        lines = outcome.out.splitlines()
        self.assertTrue(lines[0].startswith(b"note: the file begins with a byte order mark"))
        self.assertTrue(lines[1].startswith(b"line 1: "))

    def test_all_faults(self):
        """Each of the faulty lines, with its word; and the one that is answered."""
        show = text(
            'CUE 4 "Bahnhof"',
            "UP 1:60",
            "SUB 101",
            "CHAN 1@FL 2",
            "PATCH 1 0<1@H",
            "IDENT",
            "CUE x 2",
        )
        told = [
            "line 1: BadNumber at `\"Bahnhof\"`: CUE 4 \"Bahnhof\"",
            "line 2: BadTime at `1:60`: UP 1:60",
            "line 3: Limit at `101`: SUB 101",
            "line 4: HalfPair: CHAN 1@FL 2",
            "line 5: BadLevel at `H`: PATCH 1 0<1@H",
            "line 6: Ident: IDENT",
            "line 7: BadNumber at `x`: CUE x 2",
            "check answers line 1: BadNumber",
        ]
        self.assertEqual((3, told), explain(show))
        self.assertEqual(told, faults.faults(show))

    def test_examples_of_slips(self):
        """What stands beside each example is what the second readers say, and is printed."""
        for file in sorted((TOP / "examples/slips").glob("*.asc")):
            with self.subTest(file.name):
                content = file.read_bytes()
                told = file.with_suffix(".explained").read_text().splitlines()
                self.assertEqual(told, expected_output(content)[1])
                self.assertExplained(content)
                self.assertEqual(3, run("check", "--strict", "-", stdin=content).status)

    def test_faults_of_an_encoding(self):
        """A file whose lines end in CR alone is one faulty line; the note says why."""
        show = text("PATCH 1 1<1@FL", "CUE 1", "CHAN 1@FL").replace(b"\n", b"\r")
        note = (
            "note: the file's lines end in CR alone, so that it is one line: save it with LF "
            "or CR LF"
        )
        told = [
            note,
            "line 1: BadNumber at `CUE`: PATCH 1 1<1@FL CUE 1 CHAN 1@FL ",
            "check answers line 1: BadNumber",
        ]
        self.assertEqual((3, told), explain(show))
        self.assertEqual(told, faults.faults(show))

    def test_too_many_cues(self):
        show = text(*(f"CUE {n}" for n in range(1, 2002)), "CHAN x")
        told = ["line 2002: HalfPair: CHAN x", "check answers line 2001: Limit"]
        told[0] = "line 2002: BadNumber at `x`: CHAN x"
        self.assertEqual((3, told), explain(show))

    def test_slips_are_refused(self):
        """The slips of the pen that a plain check passes."""
        patch, cue = "PATCH 1 1<1@FL 2<2@FL", ("CUE 1", "CHAN 1@FL")
        for slip in (
            text(patch, "CUE 1", "UP 0,5", "CHAN 1@FL"),
            text(patch, *cue, "CUE 1", "CHAN 2@FL"),
            text(patch, *cue, "CEU 7", "CHAN 2@FL"),
            text("IDENT 3:0", *cue).replace(b"\n", b"\r"),
            text(patch, *cue).decode().encode("utf-16"),
            b"<!DOCTYPE html>\n<html><body>show</body></html>\n",
            b"\x89PNG\r\n\x1a\n\0\0\0\rIHDR\0\0\1\0",
        ):  # fmt: skip
            with self.subTest(slip[:40]):
                self.assertEqual(0, run("check", "-", stdin=slip).status)
                self.assertEqual(3, run("check", "--strict", "-", stdin=slip).status)
                self.assertNotEqual(b"", run("explain", "-", stdin=slip).out)
        self.assertEqual(0, run("check", "-", "--strict", stdin=text(patch, *cue)).status)

    def test_no_text(self):
        """What the file of a show without cues seems to be stands behind the counts."""
        for content, what in (
            (b"\x89PNG\r\n\x1a\n\0\0", b"a picture (PNG)"),
            (b"\xff\xd8\xff\xe0", b"a picture (JPEG)"),
            ("CUE 1\n".encode("utf-16"), b"text in UTF-16"),
            ("CUE 1\n".encode("utf-16-le"), b"text in UTF-16"),
            (b"abc" * 100 + b"\0", b"data that is no text"),
            (b"CUE 1\n\0\n", None),
            (b"abc" * 200 + b"\0", None),
            (b"", None),
        ):
            with self.subTest(content[:20]):
                done = subprocess.run([PROGRAM, "check", "-"], input=content, capture_output=True)
                front = b"the show has no cue, and its file seems to be "
                self.assertEqual(0, done.returncode)
                self.assertTrue(done.stderr.startswith(front + what) if what else not done.stderr)


if __name__ == "__main__":
    unittest.main()
