"""The words of the command line: forms, refusals, help, and the texts that the parser writes."""

import os
import shutil
import subprocess
import tempfile

from program import CID, PROGRAM, UNFIT, ProgramTest, counts, packet, run
from worked import LOOK_ONE as SHOW, table

LINE = packet(1, {1: 64}).hex().encode() + b"\n"


class Words(ProgramTest):
    def assertRefused(self, *words, telling=(b"error: ", b"--help")):
        """The parser refuses the words: its text on standard error, nothing printed, status 2."""
        outcome = run(*words, stdin=SHOW)
        self.assertEqual((2, b""), (outcome.status, outcome.out), words)
        for part in telling:
            self.assertIn(part, outcome.err)

    def test_order_of_words(self):
        """Options stand anywhere, as two words or as one; behind `--` there are none."""
        for words in (
            ("look", "-", "1", "--cid", CID),
            ("look", "-", "1", f"--cid={CID}"),
            ("look", "--cid", CID, "-", "1"),
            ("look", "-", "--cid", CID, "1"),
            ("look", "--cid", CID, "--", "-", "1"),
        ):
            with self.subTest(words):
                self.assertRuns(words, SHOW, out=LINE)
        self.assertRuns(["check", "--", "-"], SHOW, out=counts(lines=5, cues=1, dimmers=1))

    def test_uuid_spellings(self):
        """Hyphenated, plain, in braces, as a URN; in either case. Anything else lacks the form."""
        plain = CID.replace("-", "")
        for spelling in (CID, CID.upper(), plain, plain.upper(), f"{{{CID}}}", f"urn:uuid:{CID}"):
            with self.subTest(spelling):
                self.assertRuns(["look", "-", "1", "--cid", spelling], SHOW, out=LINE)
        for spelling in ("x", "", CID[1:], plain[1:], CID.replace("-", ":"), CID + "0", " " + CID):
            with self.subTest(spelling):
                self.assertRuns(["look", "-", "1", "--cid", spelling], SHOW, status=2, err=UNFIT)

    def test_cue_words(self):
        """CUE is a cue number: its form is checked before the show is read."""
        for word in ("", "0", "0.0", "10000", "1.2345", "1.", "0000000001", "1 "):
            with self.subTest(word):
                self.assertRuns(["look", "-", word, "--cid", CID], b"CUE x", status=2, err=UNFIT)
        for word in ("1.0", "01", "1.000", "000000001"):
            with self.subTest(word):
                self.assertLooks(SHOW, word, {1: {1: 64}})
        for word in ("2", ".001", "1.001", "9999.999"):
            with self.subTest(word):
                self.assertNoCue(SHOW, word)

    def test_look_words(self):
        """A word that lacks its form, and words without an option that must be there."""
        for row in table("look_words").rows:
            told = row.cells["told"]
            outcome = run(*row.cells["words"].split(), stdin=SHOW)
            self.assertEqual((2, b""), (outcome.status, outcome.out))
            self.assertIn(told.encode(), outcome.err)

    def test_no_words(self):
        self.assertRefused(telling=[b"Usage:"])

    def test_help(self):
        """Help is no refusal: on standard output, nothing on standard error, status 0."""
        for words, telling in (
            (["--help"], b"Usage: cueplayer"),
            (["-h"], b"Usage: cueplayer"),
            (["help"], b"Usage: cueplayer"),
            (["help", "look"], b"Usage: cueplayer look"),
            (["look", "--help"], b"Usage: cueplayer look"),
            (["check", "-h"], b"Usage: cueplayer check"),
            (["rehearse", "-h"], b"Usage: cueplayer rehearse"),
        ):
            with self.subTest(words):
                outcome = run(*words)
                self.assertEqual((0, b""), (outcome.status, outcome.err))
                self.assertIn(telling, outcome.out)

    def test_refused_words(self):
        for words, telling in (
            (["nonsense"], b"'nonsense'"),
            ([""], b"''"),
            (["check"], b"<SHOW>"),
            (["check", "-", "-"], b"'-'"),
            (["rehearse", "a"], b"<SCRIPT>"),
            (["check", "-", "--cid", CID], b"'--cid'"),
            (["look", "-", "--cid", CID], b"<CUE>"),
            (["look", "-", "1", "--cid", CID, "--bogus"], b"'--bogus'"),
            (["look", "-", "-1", "--cid", CID], b"'-1'"),
            (["-x", "check", "-"], b"'-x'"),
            (["CHECK", "-"], b"'CHECK'"),
        ):
            with self.subTest(words):
                self.assertRefused(*words, telling=[b"error: ", b"Usage: ", b"'--help'", telling])

    def test_option_without_a_value(self):
        self.assertRefused(
            "look", "-", "1", "--cid", telling=[b"error: ", b"'--cid <UUID>'", b"'--help'"]
        )

    def test_option_given_twice(self):
        self.assertRefused("look", "-", "1", "--cid", CID, "--cid", CID)

    def test_refusal_before_form(self):
        """What the parser refuses is told before a word that lacks its form."""
        self.assertRefused("look", "-", "x")
        self.assertRefused("look", "-", "x", "--cid", "x", "--bogus")

    def test_words_not_utf_8(self):
        for words in (
            [b"\xff"],
            [b"check", b"\xff"],
            [b"look", b"-", b"1", b"--cid", b"\xff\xfe"],
        ):
            with self.subTest(words):
                outcome = run(*words, stdin=SHOW)
                self.assertEqual((2, b""), (outcome.status, outcome.out))
                self.assertNotEqual(b"", outcome.err)

    def test_path_not_utf_8(self):
        """The path by which the program is called is none of the user's words."""
        with tempfile.TemporaryDirectory() as folder:
            copy = os.path.join(os.fsencode(folder), b"b\xfchne", b"cueplayer")
            os.mkdir(os.path.dirname(copy))
            shutil.copy(PROGRAM, copy)
            done = subprocess.run(
                [copy, b"check", b"-"], input=SHOW, capture_output=True, timeout=60
            )
            self.assertEqual((0, b""), (done.returncode, done.stderr))
            done = subprocess.run([copy, b"check", b"\xfc"], capture_output=True, timeout=60)
            self.assertEqual(2, done.returncode)
            done = subprocess.run([copy], capture_output=True, timeout=60)
            self.assertEqual(2, done.returncode)
            self.assertIn(b"Usage: cueplayer <COMMAND>", done.stderr)
