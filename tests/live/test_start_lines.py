"""`live`: what it tells on standard error at its start."""

import os
import subprocess

from live_nights import LiveTest
from program import CID, LIVE_NAME, PROGRAM, TOP, text
from wire import own_network
from worked import S1

SENDS = f"priority 100, CID {CID}, name {LIVE_NAME}"
HERE = "from 127.0.0.1 (lo)"
ENDS = "end ends the night, leave leaves the light to others"
NO_RECORD = "record: none; --record FILE keeps one"


class StartLines(LiveTest):
    def lines(self, *options, before=(), **kept):
        """The lines of a night that ends with its input, which is empty, on standard error."""
        words = [*before, self.PROGRAM, *self.words(*options, **kept)]
        done = subprocess.run(words, input=b"", capture_output=True, timeout=30, env=self.env)
        return done.stderr.decode().splitlines()

    def test_start(self):
        """Five lines, and nothing more."""
        show = "show: 2 cues, 1 submaster, 0 groups, 2 dimmers"
        sends = f"sends: universe 1 to {self.to}, {SENDS}"
        self.assertEqual([show, sends, HERE, NO_RECORD, ENDS], self.lines())

    def test_counts(self):
        """As `check` counts them; of each it says whether there is one or more."""
        for show, *counts in (
            (b"", "0 cues", "0 submasters", "0 groups", "0 dimmers"),
            (text("CUE 1", "SUB 7", "GROUP 9", "PATCH 1 1<1@FL"),)
            + ("1 cue", "1 submaster", "1 group", "1 dimmer"),
            (text("SUB 1", "SUB 2", "GROUP 1", "GROUP 2", "GROUP 3", "PATCH 1 1<1@FL 1<2@FL"),)
            + ("0 cues", "2 submasters", "3 groups", "2 dimmers"),
            (text(*(f"CUE {n}" for n in range(1, 2001))),)
            + ("2000 cues", "0 submasters", "0 groups", "0 dimmers"),
        ):
            with self.subTest(counts):
                self.show.write_bytes(show)
                self.assertEqual("show: " + ", ".join(counts), self.lines()[0])

    def test_skipped_lines(self):
        counts = "show: 1 cue, 0 submasters, 0 groups, 0 dimmers"
        for skipped, told in ((1, "1 line"), (2, "2 lines"), (30, "30 lines")):
            self.show.write_bytes(text("CUE 1", *["WHAT"] * skipped))
            self.assertEqual(f"{counts}; {told} skipped: see cueplayer explain", self.lines()[0])

    def test_notes_of_weight(self):
        counts = "show: 1 cue, 0 submasters, 0 groups, 0 dimmers"
        for more, told in (
            (["UP 0,5"], "1 note of weight"),
            (["UP 0,5", "CUE 1"], "2 notes of weight"),
            (["WHAT", "LINK 7"], "1 line skipped, 1 note of weight"),
        ):
            self.show.write_bytes(text("CUE 1", *more))
            self.assertEqual(f"{counts}; {told}: see cueplayer explain", self.lines()[0])

    def test_no_text(self):
        self.show.write_bytes(b"\x89PNG\r\n\x1a\n")
        told = "the show has no cue, and its file seems to be a picture (PNG)"
        self.assertTrue(self.lines()[1].startswith(told))

    def test_universes(self):
        """Those that a dimmer is patched in, with the numbers that are sent."""
        for dimmers, base, universes in (
            ((1, 512), 1, "universe 1"),
            ((513,), 7, "universe 8"),
            ((1, 513, 2000), 63996, "universes 63996 63997 63999"),
            (range(1, 8193, 512), 100, "universes " + " ".join(str(n) for n in range(100, 116))),
        ):
            with self.subTest(universes):
                self.show.write_bytes(text(*(f"PATCH 1 1<{dimmer}@FL" for dimmer in dimmers)))
                told = self.lines("--base", str(base))[1]
                self.assertEqual(f"sends: {universes} to {self.to}, {SENDS}", told)

    def test_no_universe(self):
        self.show.write_bytes(text("CUE 1"))
        told = self.lines()[1]
        self.assertEqual(
            f"sends: no universe, since no dimmer is patched, to {self.to}, {SENDS}", told
        )

    def test_source(self):
        """The priority, and the CID however it was spelled."""
        for priority in ("0", "200"):
            for cid in (CID.upper(), CID.replace("-", ""), f"{{{CID}}}"):
                told = self.lines("--priority", priority, cid=cid)[1]
                self.assertEqual(
                    f"sends: universe 1 to {self.to}, priority {priority}, CID {CID}, name "
                    f"{LIVE_NAME}",
                    told,
                )

    def test_name(self):
        """As it is in each packet, in UTF-8."""
        for name in ("the backup", "M\u00e4in, 2", "n" * 63):
            told = self.lines("--name", name)[1]
            self.assertEqual(
                f"sends: universe 1 to {self.to}, priority 100, CID {CID}, name {name}", told
            )

    def test_targets(self):
        """Several targets, or one for some universes alone, have a line each, in their order."""
        self.show.write_bytes(text("PATCH 1 1<1@FL 1<513@FL 1<1025@FL"))
        more = ("--to", "3=127.0.0.1:6000", "--to", "1-2=127.0.0.2", "--to", "2=127.0.0.1")
        told = self.lines(*more)
        self.assertEqual(f"sends: universes 1 2 3 to 4 targets, {SENDS}", told[1])
        self.assertEqual(
            [
                f"target: {self.to}",
                "target: universe 3 to 127.0.0.1:6000",
                "target: universes 1-2 to 127.0.0.2:5568",
                "target: universe 2 to 127.0.0.1:5568",
                HERE,
            ],
            told[2:-2],
        )
        told = self.lines(to="1-3=127.0.0.1")
        self.assertEqual(
            (
                f"sends: universes 1 2 3 to 1 target, {SENDS}",
                "target: universes 1-3 to 127.0.0.1:5568",
            ),
            tuple(told[1:3]),
        )

    def test_multicast(self):
        """Each universe to its own group, and all to one address: only the first is told as
        multicast."""
        network = own_network(self)
        for to, told in (
            ("239.255.0.0", "239.255.0.0:5568 (multicast)"),
            ("239.255.0.0:6000", "239.255.0.0:6000 (multicast)"),
            ("239.255.0.1", "239.255.0.1:5568"),
            ("127.0.0.1", "127.0.0.1:5568"),
        ):
            self.assertEqual(
                f"sends: universe 1 to {told}, {SENDS}", self.lines(before=network, to=to)[1]
            )

    def test_record(self):
        """By its name, of which 200 characters are shown, each that is no printable ASCII as
        `?`."""
        for name, shown in (
            ("night of May.play", "night of May.play"),
            ("n\u00e4cht\x1b[31m\n.play", "n?cht?[31m?.play"),
            ("x" * 250, "x" * 250),
        ):
            with self.subTest(name):
                record = self.folder / name
                self.assertEqual(
                    f"record: {self.folder / shown}"[:208], self.lines("--record", record)[-2]
                )

    def test_ends(self):
        """That control-C does nothing is told where it is so."""
        self.assertEqual(ENDS, self.lines()[-1])
        self.env = os.environ | {"CUEPLAYER_INTERRUPTS": "ignored"}
        self.assertEqual(f"{ENDS}; control-C does nothing", self.lines()[-1])

    def test_refused(self):
        """Where no night begins there is none of these lines."""
        refused = (
            (text("CUE x"), (), ["show line 1: BadNumber"]),
            (b"!" * 1_048_577, (), ["show: TooLong"]),
            (text("PATCH 1 1<513@FL"), ("--base", "63999"), ["base: Universe"]),
            (S1, ("--record", "/dev/null/x"), ["device fault"]),
        )
        for show, options, fault in refused:
            with self.subTest(fault):
                self.show.write_bytes(show)
                lines = self.lines(*options)
                self.assertEqual((fault, 2), (lines[:1], len(lines)))


class ByTheScript(LiveTest):
    PROGRAM = TOP / "cueplayer"

    def test_control_c(self):
        """`./cueplayer live` has control-C ignored, and it is told, be there a terminal or not."""
        self.env = os.environ | {"CUEPLAYER": str(PROGRAM)}
        night = self.start()
        start = [night.stderr.readline().decode().rstrip("\n") for _ in range(5)]
        self.assertEqual(f"{ENDS}; control-C does nothing", start[-1])
        self.assertEqual(0, self.end_night(night).status)
