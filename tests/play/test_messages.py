"""The second line on standard error: what was found, and what would be right."""

import os
import socket
import subprocess
import tempfile
import unittest
from pathlib import Path

from program import CID, PROGRAM, TO_NOBODY, text

LEVEL = b"a level is a percent from 0 to 100, FL or FF, or H and one or two hex digits"
TIME = b"a time is seconds to 5999.99, as 2.5, or minutes and seconds to 99:59.99"
NUMBER = b"a number is 1 to 9 digits; a cue's is 0.001 to 9999.999, as 2.5"
LIMIT = b"a show has 2000 cues, channels to 4096, dimmers to 8192, 500 groups, 100 submasters"
UUID = b"a CID is a UUID, 32 hex digits, as uuidgen prints one"
ADDRESS = b"an address is four numbers, as 10.0.0.7, with or without a port, as 10.0.0.7:5568"
TARGET = (
    b"a target is an address, as 10.0.0.7 or 10.0.0.7:5568, with or without its universes,"
    b" as 3=10.0.0.7 or 1-8=10.0.0.7"
)
CUE = b"a cue is a number from 0.001 to 9999.999, as 2.5"
PRIORITY = b"a priority is a number from 0 to 200"
UNIVERSE = b"a universe is a number from 1 to 63999"
ONCE = b"a watch names a universe once"
SIXTEEN = b"a watch has at most 16 universes"
COUNT = b"a count is a number from 1 to 1000000"
RECORDED = b"a night goes on in its record: --record FILE names it"
PATIENCE = b"a patience is a number of milliseconds from 1 to 60000"
FOLLOWED = b"a night waits for the main that it follows: --follow FILE names its record"
ALONE = b"a night that follows begins where its main is: leave out --resume and --start"
INPUT_LINE = (
    b"MOMENT and go, back, goto CUE, goto CUE in TIME, sub N LEVEL, group N LEVEL, "
    b"master LEVEL, end or tick"
)
WATCH_LINE = b"MOMENT and a datagram in hex, or MOMENT alone, in at most 3072 bytes"
SCRIPT_LINE = (
    b"console BASE PRIORITY UUID, receiver UNIVERSE, or MOMENT and do, tick, "
    b"deliver, stray or slots"
)
SHOW = text("CUE 1", "CHAN 1@FL", "PATCH 1 1<1@FL")


def run(*words, stdin=b"", **options):
    """The status of a run, and the lines that it writes on standard error."""
    done = subprocess.run(
        [PROGRAM, *words], input=stdin, capture_output=True, timeout=60, **options
    )
    return done.returncode, done.stderr.splitlines()


class Messages(unittest.TestCase):
    maxDiff = None

    def test_show_faults(self):
        """The line as it stands, and the rule."""
        for line, fault, rule in (
            (b"CHAN 1@101", b"BadLevel", LEVEL),
            (b"UP 1:60", b"BadTime", TIME),
            (b"CHAN x@FL", b"BadNumber", NUMBER),
            (b"CHAN 5000@FL", b"Limit", LIMIT),
            (b"CHAN 1@FL 2", b"HalfPair", b"CHAN takes pairs of a channel and a level"),
            (
                b"PATCH 1 1<1",
                b"HalfTriple",
                b"PATCH takes a page, and triples of a channel, a dimmer and a level",
            ),
            (
                b"UP",
                b"MissingNumber",
                b"CUE, GROUP, SUB and PATCH need a number; a line that times a cue needs a time",
            ),
            (b"IDENT 2:0", b"Ident", b"IDENT names version 3:0"),
        ):
            told = [b"show line 2: " + fault, b"`" + line + b"`: " + rule]
            self.assertEqual((3, told), run("check", "-", stdin=b"CUE 1\n" + line + b"\n"), line)

    def test_what_is_shown_of_a_line(self):
        """200 bytes at most, each of them printable."""
        line = b"CHAN\t1 \x00\x1b[31m\xff\x7f"
        told = [b"show line 2: BadLevel", b"`CHAN 1 ??[31m??`: " + LEVEL]
        self.assertEqual((3, told), run("check", "-", stdin=b"CUE 1\n" + line + b"\n"))
        line = b"CHAN 1@x" + b" " * 300
        told = [b"show line 2: BadLevel", b"`" + line[:200] + b"`: " + LEVEL]
        self.assertEqual((3, told), run("check", "-", stdin=b"CUE 1\n" + line))

    def test_shows(self):
        told = [b"show: TooLong", b"a show has at most 1048576 bytes"]
        self.assertEqual((3, told), run("check", "-", stdin=b"!" * 1_048_577))
        told = [b"show: NoCue", b"the show has no cue of this number"]
        self.assertEqual((3, told), run("look", "-", "2", "--cid", CID, stdin=SHOW))
        self.assertEqual((3, told), run("slots", "-", "2", stdin=SHOW))
        told = [b"base: Universe", b"the base, and the show's universes after it, are 1 to 63999"]
        show = text("CUE 1", "PATCH 1 1<513@FL")
        self.assertEqual((2, told), run("slots", "-", "1", "--base", "63999", stdin=show))

    def test_words(self):
        """The first argument, in the order of the line, that lacks its form; its text; and the
        form."""
        to = ("--to", "127.0.0.1")
        cid = ("--cid", CID)
        for words, argument, form in (
            (("look", "a", "x", *cid), b"CUE `x`", CUE),
            (("look", "a", "1", "--cid", "c0ffee"), b"--cid `c0ffee`", UUID),
            (("look", "a", "1", "--cid=c0ffee"), b"--cid `c0ffee`", UUID),
            (("play", "a", "--to", "10.0.0", *cid), b"--to `10.0.0`", TARGET),
            (("live", "a", *to, "--to", "0=10.0.0.7", *cid), b"--to `0=10.0.0.7`", TARGET),
            (("play", "a", *to, *cid, "--priority", "201"), b"--priority `201`", PRIORITY),
            (("live", "a", *to, *cid, "--base", "0"), b"--base `0`", UNIVERSE),
            (("listen", "::1", "1", "1"), b"ADDR `::1`", ADDRESS),
            (("listen", "127.0.0.1", "64000", "1"), b"UNIVERSE `64000`", UNIVERSE),
            (("listen", "127.0.0.1", "1", "1000001"), b"COUNT `1000001`", COUNT),
            (("watch", "1", "0", "x"), b"UNIVERSE `0`", UNIVERSE),
            (("watch", "1", "2", "01"), b"UNIVERSE `01`", ONCE),
            (("watch", *map(str, range(1, 18))), b"UNIVERSE `17`", SIXTEEN),
            (("watch", "0", *map(str, range(1, 17))), b"UNIVERSE `16`", SIXTEEN),
            (("live", "a", *to, *cid, "--start", "0"), b"--start `0`", CUE),
            (("live", "a", *to, *cid, "--resume"), b"--resume", RECORDED),
            (
                ("live", "a", *to, *cid, "--follow", "b", "--patience", "0"),
                b"--patience `0`",
                PATIENCE,
            ),
            (("live", "a", *to, *cid, "--patience", "100"), b"--patience `100`", FOLLOWED),
            (("live", "a", *to, *cid, "--follow", "b", "--start", "1"), b"--follow `b`", ALONE),
            (
                ("live", "a", *to, *cid, "--record", "c", "--resume", "--follow", "b"),
                b"--follow `b`",
                ALONE,
            ),
            (("look", "a", "1", "--cid", "\u00fc"), b"--cid `??`", UUID),
            # More than one of them lacks its form.
            (("look", "a", "x", "--cid", "c0ffee"), b"CUE `x`", CUE),
            (("look", "a", "--cid", "c0ffee", "x"), b"CUE `x`", CUE),
            (("play", "a", "--base", "0", "--cid", "c0ffee", "--to", "10"), b"--to `10`", TARGET),
            (
                ("live", "a", "--resume", "--start", "x", "--base", "0", *to, *cid),
                b"--base `0`",
                UNIVERSE,
            ),
            (("live", "a", "--start", "x", "--resume", *to, *cid), b"--resume", RECORDED),
            (
                ("live", "a", "--patience", "0", "--start", "x", "--follow", "b", *to, *cid),
                b"--start `x`",
                CUE,
            ),
            (("live", "a", "--patience", "0", *to, *cid), b"--patience `0`", FOLLOWED),
        ):
            self.assertEqual((2, [b"words refused", argument + b": " + form]), run(*words), words)
        self.assertEqual(
            (2, [b"words refused", b"the words are text in UTF-8"]), run("check", b"\xff")
        )

    def test_lines(self):
        with tempfile.TemporaryDirectory() as name:
            show, script = Path(name) / "show", Path(name) / "script"
            show.write_bytes(SHOW)
            words = ("play", show, *TO_NOBODY)
            self.assertEqual(
                (4, [b"line 2 refused", INPUT_LINE]), run(*words, stdin=b"0 tick\n1 jump\n")
            )
            self.assertEqual(
                (4, [b"line 2 refused", WATCH_LINE]), run("watch", "1", stdin=b"1\nx\n")
            )
            script.write_bytes(b"console 1 100 " + CID.encode() + b"\n0 go 1\n")
            told = [b"line 2 refused", b"`0 go 1`: " + SCRIPT_LINE]
            self.assertEqual((4, told), run("rehearse", show, script))
            script.write_bytes(b"")
            told = [b"setup: Consoles", b"a script has one to four consoles"]
            self.assertEqual((4, told), run("rehearse", show, script))
            script.write_bytes(b"!" * 16_777_217)
            told = [b"script: TooLong", b"a script has at most 16777216 bytes"]
            self.assertEqual((4, told), run("rehearse", show, script))

    def test_files(self):
        with tempfile.TemporaryDirectory() as name:
            missing, kept = os.path.join(name, "none"), Path(name) / "kept"
            told = [b"device fault", missing.encode() + b": there is no such file"]
            self.assertEqual((5, told), run("check", missing))
            self.assertEqual((5, told), run("rehearse", missing, missing))
            told = [b"device fault", name.encode() + b": it is a directory"]
            self.assertEqual((5, told), run("check", name))
            show = Path(name) / "show"
            show.write_bytes(SHOW)
            kept.write_bytes(b"0 tick\n")
            words = ("live", show, *TO_NOBODY, "--record", kept)
            told = [b"device fault", b"the record's file is not empty: --resume goes on with it"]
            self.assertEqual((5, told), run(*words))

    def test_no_text(self):
        """What a file without cues seems to be, where it is played too."""
        seems = b"the show has no cue, and its file seems to be a picture (PNG)"
        told = seems + b": check the file's name and how it was saved"
        with tempfile.TemporaryDirectory() as name:
            show = Path(name) / "show"
            show.write_bytes(b"\x89PNG\r\n\x1a\n")
            for words in (("check", show), ("play", show, *TO_NOBODY)):
                self.assertEqual((0, [told]), run(*words))

    @unittest.skipUnless(Path("/dev/full").exists(), "no full disk")
    def test_full_disk(self):
        told = [b"device fault", b"standard output: the disk is full"]
        with tempfile.TemporaryDirectory() as name:
            show = Path(name) / "show"
            show.write_bytes(SHOW)
            for words, stdin in (
                (["check", "-"], SHOW),
                (["cues", "-"], SHOW),
                (["look", "-", "1", "--cid", CID], SHOW),
                (["play", show, *TO_NOBODY], b"0 go\n"),
            ):
                with self.subTest(words), open("/dev/full", "wb") as full:
                    done = subprocess.run(
                        [PROGRAM, *words],
                        input=stdin,
                        stdout=full,
                        stderr=subprocess.PIPE,
                        timeout=60,
                    )
                    self.assertEqual((5, told), (done.returncode, done.stderr.splitlines()))

    def test_addresses(self):
        with socket.socket(socket.AF_INET, socket.SOCK_DGRAM) as held:
            held.bind(("127.0.0.1", 0))
            at = f"127.0.0.1:{held.getsockname()[1]}"
            told = [b"device fault", at.encode() + b": the address and port are in use"]
            self.assertEqual((5, told), run("listen", at, "1", "1"))
        # An address of the pages' examples, which no machine has.
        told = [b"device fault", b"192.0.2.1:5568: this machine does not have the address"]
        self.assertEqual((5, told), run("listen", "192.0.2.1", "1", "1"))

    def test_lost(self):
        """Where the last packet that was lost went to, and why: no socket may send to all."""
        with tempfile.TemporaryDirectory() as name:
            show = Path(name) / "show"
            show.write_bytes(SHOW)
            words = ("play", show, "--to", "255.255.255.255", "--cid", CID)
            told = [b"lost 1", b"255.255.255.255:5568: the system does not permit it"]
            self.assertEqual((5, told), run(*words, stdin=b"0 tick\n"))

    def test_where_it_listens(self):
        """Before it waits; the port too that the system chose."""
        words = [PROGRAM, "listen", "127.0.0.1:0", "1", "1"]
        with subprocess.Popen(words, stdout=subprocess.PIPE, stderr=subprocess.PIPE) as child:
            line = child.stderr.readline().decode()
            host, port = line.removeprefix("listening at ").strip().split(":")
            self.assertEqual("127.0.0.1", host)
            with socket.socket(socket.AF_INET, socket.SOCK_DGRAM) as sender:
                sender.sendto(b"", (host, int(port)))
            out, err = child.communicate(timeout=30)
        self.assertEqual(
            (0, b"1 ignored Unreadable Short\nslots\n", b""), (child.returncode, out, err)
        )

    def test_multicast(self):
        """Once, that the group must have been joined; without that, nothing comes."""
        words = [PROGRAM, "listen", "239.255.0.1:0", "1", "1"]
        with subprocess.Popen(words, stdout=subprocess.PIPE, stderr=subprocess.PIPE) as child:
            line = child.stderr.readline()
            child.kill()
        self.assertRegex(
            line,
            rb"^listening at 239\.255\.0\.1:\d+: this machine hears a multicast group only where"
            rb" it has joined it\n$",
        )
