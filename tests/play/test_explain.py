"""`explain`: which lines of a show are skipped, and why, and notes for its author."""

from program import CID, DEVICE_FAULT, TOP, ProgramTest, run
from worked import above, table, with_examples


@with_examples("show", "explained")
class Explain(ProgramTest):
    def assertExample(self, name):
        for row in table(name).rows:
            explained = row.text("explained")
            for show in row.texts("show"):
                with self.subTest(show[:80]):
                    self.assertExplains(above(name) + show, explained)

    def assertExplains(self, show, explained):
        """It prints this: a line for each that `check` counts as skipped, and notes."""
        self.assertRuns(["explain", "-"], show, out=explained)
        counted = int(run("check", "-", stdin=show).out.split()[-1])
        self.assertEqual(
            counted, sum(line.startswith(b"line ") for line in explained.splitlines())
        )

    def test_utf_16(self):
        """With a mark in front and without one, of either order of bytes: its note is the
        first."""
        notes = ["note: the file is UTF-16, which is not read as text: save it as ASCII"]
        notes += ["note: no dimmer is patched: no universe is sent"]
        marks = ("utf-16-le", b"\xff\xfe"), ("utf-16-be", b"\xfe\xff")
        for encoding, front in (*marks, ("utf-16-le", b""), ("utf-16-be", b"")):
            with self.subTest(encoding=encoding, front=front):
                outcome = run("explain", "-", stdin=front + "CUE 1\nCHAN 1@FL\n".encode(encoding))
                self.assertEqual((0, b""), (outcome.status, outcome.err))
                lines = outcome.out.decode().splitlines()
                self.assertEqual(notes, [lines[0], lines[-1]])

    def test_examples(self):
        """All that the examples say is read and shown."""
        for file in sorted((TOP / "examples").glob("*.asc")):
            with self.subTest(file.name):
                self.assertRuns(["explain", file], b"")

    def test_devices(self):
        self.assertRuns(["explain", "/no/such/file"], b"", status=5, err=DEVICE_FAULT)
        self.assertFullDisk(["explain", "-"], b"WHAT\n")

    def test_words(self):
        for words, telling in (
            ([], b"<SHOW>"),
            (["-", "1"], b"'1'"),
            (["-", "--cid", CID], b"'--cid'"),
        ):
            with self.subTest(words):
                outcome = run("explain", *words, stdin=b"WHAT\n")
                self.assertEqual((2, b""), (outcome.status, outcome.out))
                self.assertIn(b"error: ", outcome.err)
                self.assertIn(telling, outcome.err)
        outcome = run("explain", "--help")
        self.assertEqual((0, b""), (outcome.status, outcome.err))
        for part in (b"Usage: cueplayer explain", b"<SHOW>", b"Example: cueplayer explain night"):
            self.assertIn(part, outcome.out)
