"""`slots`: the levels of a cue, for people."""

from documents import blocks
from program import CID, DEVICE_FAULT, TOP, UNFIT, ProgramTest, run, text
from worked import LOOK_ONE as SHOW

TWO = text("PATCH 1 1<1@FL 2<3@FL 1<513@FL", "CUE 1", "CHAN 1@FL 2@50")
BASE = b"base: Universe\n"


class Slots(ProgramTest):
    def assertSlots(self, words, show, *lines):
        out = "".join(line + "\n" for line in lines).encode()
        self.assertRuns(["slots", "-", *words], show, out=out)

    def test_base(self):
        for base in ("--base", "7"), ("--base=7",):
            with self.subTest(base):
                self.assertSlots(["1", *base], SHOW, "universe 7", "slots 1:64")
        lines = ("universe 63998", "slots 1:255 3:128", "universe 63999", "slots 1:255")
        self.assertSlots(["1", "--base", "63998"], TWO, *lines)
        self.assertSlots(["1", "--base", "63999"], SHOW, "universe 63999", "slots 1:64")

    def test_base_too_high(self):
        words = ["slots", "-", "1", "--base", "63999"]
        self.assertRuns(words, TWO, status=2, err=BASE)
        # The show is read first, and then the cue is looked up.
        self.assertRuns(words, b"CUE x", status=3, err=b"show line 1: BadNumber\n")
        words[2] = "9"
        self.assertRuns(words, TWO, status=3, err=b"show: NoCue\n")

    def test_devices(self):
        self.assertRuns(["slots", "/no/such/file", "1"], b"", 5, err=DEVICE_FAULT)
        self.assertFullDisk(["slots", "-", "1"], SHOW)

    def test_words(self):
        for words in (["x"], ["0"], *(["1", "--base", base] for base in ("0", "64000", "x"))):
            with self.subTest(words):
                self.assertRuns(["slots", "-", *words], b"CUE x", status=2, err=UNFIT)
        for words, telling in (
            ([], b"<SHOW>"),
            (["-"], b"<CUE>"),
            (["-", "1", "2"], b"'2'"),
            (["-", "1", "--base"], b"--base <U>"),
            (["-", "1", "--cid", CID], b"'--cid'"),
        ):
            with self.subTest(words):
                outcome = run("slots", *words, stdin=SHOW)
                self.assertEqual((2, b""), (outcome.status, outcome.out))
                self.assertIn(b"error: ", outcome.err)
                self.assertIn(telling, outcome.err)

    def test_help(self):
        outcome = run("slots", "--help")
        self.assertEqual((0, b""), (outcome.status, outcome.err))
        for part in (b"Usage: cueplayer slots", b"<SHOW>", b"<CUE>", b"--base <U>", b"1 to 63999"):
            self.assertIn(part, outcome.out)
        self.assertIn(b"Example: cueplayer slots night.asc 1.5 --base 1", outcome.out)

    def test_example_of_the_document(self):
        (block,) = (block for block in blocks("docs/FORMATS.md") if "$ ./cueplayer slots" in block)
        words, _, printed = block.partition("\n")
        show, cue = words.split()[-2:]
        self.assertRuns(["slots", TOP / show, cue], b"", out=printed.encode())

    def test_slots_of_the_packets(self):
        """For each cue of the examples, the slots are those of the packets that `look` prints."""
        cues = {"one-dimmer": "123", "crossfade": "12", "small-play": "12345"}
        for show, cue in ((show, cue) for show in cues for cue in cues[show]):
            file = TOP / "examples" / f"{show}.asc"
            with self.subTest(show=show, cue=cue):
                looked = run("look", file, cue, "--cid", CID)
                self.assertEqual(0, looked.status)
                lines = []
                for line in looked.out.split():
                    packet = bytes.fromhex(line.decode())
                    lines.append(f"universe {int.from_bytes(packet[113:115], 'big')}")
                    levels = (
                        f" {slot}:{level}" for slot, level in enumerate(packet[126:], 1) if level
                    )
                    lines.append("slots" + "".join(levels))
                out = "".join(line + "\n" for line in lines).encode()
                self.assertRuns(["slots", file, cue], b"", out=out)
