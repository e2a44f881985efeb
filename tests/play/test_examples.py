"""What the repository shows its users: examples/, and the examples of the documents."""

import re
import socket

from documents import blocks
from program import CID, TOP, ProgramTest, counts, packet, run, text
from rooms import discovered
from wire import address_of
from worked import NAMES


class Examples(ProgramTest):
    def assertExample(self, name, printed, looks):
        """`check` prints these counts, and `look` these slots of each cue."""
        file = TOP / "examples" / name
        self.assertRuns(["check", file], b"", out=printed)
        for cue, universes in looks.items():
            with self.subTest(cue):
                lines = (packet(*universe).hex() + "\n" for universe in universes.items())
                out = "".join(lines).encode()
                self.assertRuns(["look", file, cue, "--cid", CID], b"", out=out)

    def test_one_dimmer(self):
        looks = {"1": {1: {1: 128}}, "2": {1: {1: 255}}, "3": {1: {}}}
        self.assertExample("one-dimmer.asc", counts(24, cues=3, dimmers=1), looks)

    def test_crossfade(self):
        looks = {
            "1": {1: {1: 204, 2: 204, 3: 153, 7: 115}},
            "2": {1: {4: 179, 5: 255, 6: 192, 7: 58}},
        }
        self.assertExample("crossfade.asc", counts(27, cues=2, dimmers=7), looks)

    def test_sunrise(self):
        file = TOP / "examples/sunrise.asc"
        self.assertRuns(["check", file], b"", out=counts(22, cues=3, dimmers=3))

    def test_small_play(self):
        printed = counts(82, cues=7, subs=2, groups=2, dimmers=19)
        night = {1: 16, 2: 32, 3: 200, 4: 16, 5: 32, 6: 200}
        looks = {
            "3": {1: {7: 36, 8: 36}, 2: night, 3: {}},
            "5": {1: {}, 2: {}, 3: {1: 255, 2: 255}},
        }
        self.assertExample("small-play.asc", printed, looks)

    def test_one_dimmer_played(self):
        """README's first command, what it prints, and the packets that go out."""
        command, _, printed = blocks("README.md")[0].partition("\n")
        words, _, lines = command.removeprefix("$ ./cueplayer ").partition(" <")
        levels = (0, 26, 128, 191, 255, 230)
        with socket.socket(socket.AF_INET, socket.SOCK_DGRAM) as receiver:
            receiver.bind(("127.0.0.1", 0))
            receiver.settimeout(30)
            words = [
                address_of(receiver) if word == "127.0.0.1" else word for word in words.split()
            ]
            outcome = run(*words, stdin=(TOP / lines).read_bytes(), cwd=TOP)
            self.assertEqual((0, printed.encode(), b""), outcome)
            for sequence, level in enumerate(levels):
                self.assertEqual(packet(1, {1: level}, sequence), receiver.recv(1500))

    def test_backup_console(self):
        """A rehearsal of a backup console that takes over, and the replies beside it. Half is 128;
        after 2500 of 5000 ms the level is 64, and after 4000 it is 102."""
        script = TOP / "examples/backup-console.script"
        replies = (TOP / "examples/backup-console.replies").read_bytes()
        self.assertRuns(["rehearse", TOP / "examples/one-dimmer.asc", script], b"", out=replies)
        levels = [64, 64, 102, 128, 128, 128]
        shown = [f"slots 1:{level}" for level in levels] + ["slots", "slots"]
        self.assertEqual(shown, re.findall("slots.*", replies.decode()))


class Documents(ProgramTest):
    def test_worked_examples(self):
        """Each example is carried out by a test of its name."""
        found = {test.id().rpartition(".")[2] for test in discovered()}
        self.assertEqual(set(), {f"test_{name}" for name in NAMES} - found)

    def test_profile_show(self):
        """The show that the page begins with, and what `check` prints of it."""
        show, printed = blocks("docs/PROFILE.md")[:2]
        self.assertRuns(["check", "-"], show.encode(), out=printed.encode())

    def test_profile_faults(self):
        """Each example in the table of faults, TooLong aside, has that fault as a line below `CUE
        1`."""
        page = (TOP / "docs/PROFILE.md").read_text()
        rows = re.findall(r"^\| \d \| (\w+) \|.*\| (.*) \|$", page, re.MULTILINE)
        self.assertEqual(8, len(rows))
        for name, examples in rows:
            for line in re.findall(r"`([^`]*)`", examples):
                with self.subTest(line):
                    self.assertFault(text("CUE 1", line), f" line 2: {name}")

    def test_profile_skipped_lines(self):
        """Each example in the table of skipped lines is one skipped line below `CUE 1`."""
        page = (TOP / "docs/PROFILE.md").read_text()
        table = page[page.index("| Skipped |") : page.index("*Primary* keywords")]
        lines = re.findall(r"\| `([^`]*)` \|$", table, re.MULTILINE)
        self.assertEqual(5, len(lines))
        for line in lines:
            with self.subTest(line):
                self.assertChecks(text("CUE 1", line), lines=2, cues=1, skipped=1)

    def test_formats_look(self):
        """The fields of a look that the page shows."""
        (example,) = (block for block in blocks("docs/FORMATS.md") if "cut -c" in block)
        command, printed = example.splitlines()
        words = re.fullmatch(r"\$ \./cueplayer (.*) \| cut -c 217-230,251-260", command)[1].split()
        outcome = run(*words, cwd=TOP)
        self.assertEqual(printed.encode(), outcome.out[216:230] + outcome.out[250:260])
