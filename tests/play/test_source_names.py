"""The name of a source: without --name that of `live` tells which machine sends, and a night that
goes on keeps its own."""

import functools
import os
import shutil
import subprocess
import sys

from program import CID, LIVE_NAME, PROGRAM, live_name, packet, run, text
from restarts import head
from wire import ReceiverTest

SHOW = text("CUE 1", "UP 0", "CHAN 1@H80", "PATCH 1 1<1@FL")
BACKUP = CID[:-1] + "2"
# Gives the machine this name, as bytes in hex digits, and runs the words behind it.
RENAMED = "import os, socket, sys; socket.sethostname(bytes.fromhex(sys.argv[1])); "
RENAMED += "os.execvp(sys.argv[2], sys.argv[2:])"


@functools.cache
def namespace():
    """The words that run others on a machine that may have a name of its own, or none where there
    cannot be one."""
    alone = ["unshare", "--uts"]
    for words in (alone, ["unshare", "--user", "--map-root-user", "--uts"]):
        if (
            shutil.which("unshare")
            and subprocess.run([*words, "true"], capture_output=True).returncode == 0
        ):
            return words
    return None


class NamesTest(ReceiverTest):
    SHOW = SHOW

    def setUp(self):
        super().setUp()
        if namespace() is None:
            self.skipTest("no machine can have a name of its own here (unshare --uts)")
        self.record = self.folder / "night.play"

    def on(self, machine, *options, stdin=b"end\n", job="live", cid=CID):
        """A run on the machine of this name."""
        words = [PROGRAM, job, self.show, "--to", self.to, "--cid", cid, *options]
        renamed = [sys.executable, "-c", RENAMED, os.fsencode(machine).hex()]
        environment = os.environ | {"XDG_RUNTIME_DIR": str(self.folder)}
        done = subprocess.run(
            [*namespace(), *renamed, *words],
            input=stdin,
            capture_output=True,
            timeout=60,
            env=environment,
        )
        return done.returncode, done.stderr.decode()

    def assertSends(self, name, run, cid=CID):
        """A run ends well; its start and each packet have this name."""
        status, told = run
        self.assertEqual(0, status, told)
        self.assertIn(f", CID {cid}, name {name}\n", told)
        self.assertSent(name, cid)

    def assertSent(self, name, cid=CID):
        first = packet(1, {}, cid=cid, name=name)
        came = self.came()
        self.assertTrue(came)
        self.assertEqual({first[22:108]}, {each[22:108] for each in came})

    def night(self, name):
        """A record of a night that was killed."""
        self.record.write_bytes(head(SHOW, name=name) + b"0 goto 1\n10 tick\n")


class SourceNames(NamesTest):
    def test_live(self):
        """That of the program, and what is printable ASCII of the machine's: at most 63 bytes."""
        for machine, name in (
            ("booth-pc", "cueplayer booth-pc"),
            ("b\x01o\to\x7ft h\n", "cueplayer booth"),
            ("b\u00fchne", "cueplayer bhne"),
            ("\u821e\u53f0", "cueplayer"),
            ("n" * 64, "cueplayer " + "n" * 53),
        ):
            with self.subTest(machine):
                self.assertEqual(name, live_name(machine))
                self.record.unlink(missing_ok=True)
                self.assertSends(name, self.on(machine, "--record", self.record))
                told = self.record.read_bytes().splitlines()[1].decode()
                self.assertIn(f", name {name}, started ", told)

    def test_named(self):
        """A name that is given is the name."""
        self.assertSends("main", self.on("booth", "--name", "main"))

    def test_others(self):
        """`play` and `look` send the same on each machine."""
        self.assertEqual((0, ""), self.on("booth", job="play", stdin=b"0 goto 1\n10 tick\n"))
        self.assertSent("cueplayer")
        looked = run("look", str(self.show), "1", "--cid", CID).out
        self.assertEqual(packet(1, {1: 128}).hex() + "\n", looked.decode())

    def test_play_of_a_record(self):
        """With the name of its head it has the packets of the night."""
        run_of_night = self.on("booth", "--record", self.record, stdin=b"go\nend\n")
        self.assertEqual(0, run_of_night[0])
        night = self.came()
        lines = self.record.read_bytes()
        self.assertEqual(
            (0, ""), self.on("attic", "--name", "cueplayer booth", job="play", stdin=lines)
        )
        self.assertEqual(night, self.came())

    def test_taken_up(self):
        """A night that goes on keeps the name of its record, whose machine it may not be."""
        for name in ("cueplayer booth", "cueplayer", "M\u00e4in, 2", "n" * 63):
            for options in (["--resume"], ["--resume", "--spare"]):
                with self.subTest(name=name, options=options):
                    self.night(name)
                    self.assertSends(name, self.on("spare", "--record", self.record, *options))

    def test_another_name(self):
        """A name that is given has to be that of the record."""
        self.night("cueplayer booth")
        kept = self.record.read_bytes()
        for options in (["--resume"], ["--resume", "--spare"]):
            words = ["--record", self.record, *options]
            status, told = self.on("booth", *words, "--name", "main")
            self.assertEqual((4, "record: another name"), (status, told.splitlines()[0]))
            self.assertIn("cueplayer booth, and this is main", told)
            self.assertEqual(([], kept), (self.came(), self.record.read_bytes()))
            self.assertSends("cueplayer booth", self.on("x", *words, "--name", "cueplayer booth"))
            self.record.write_bytes(kept)

    def test_no_night_yet(self):
        """Where the record has no night, it begins under the name of this machine."""
        for content in (None, b"", head(SHOW, name="x")[:40]):
            with self.subTest(content):
                self.record.unlink(missing_ok=True)
                if content is not None:
                    self.record.write_bytes(content)
                self.assertSends(
                    "cueplayer spare", self.on("spare", "--record", self.record, "--resume")
                )

    def test_backup(self):
        """A backup has the name of its own machine, and not that of the main."""
        self.night("cueplayer booth")
        words = ["--follow", self.record, "--priority", "90"]
        status, told = self.on("attic", *words, cid=BACKUP, stdin=b"take\nend\n")
        self.assertEqual(0, status, told)
        self.assertIn(f", CID {BACKUP}, name cueplayer attic\n", told)
        names = {each[44:108].rstrip(b"\0").decode() for each in self.came()}
        self.assertEqual({"cueplayer attic"}, names)


class ThisMachine(ReceiverTest):
    SHOW = SHOW

    def test_name(self):
        """Also where no machine can have another name."""
        words = ["live", str(self.show), "--to", self.to, "--cid", CID]
        done = run(*words, stdin=b"end\n")
        self.assertEqual(0, done.status)
        names = {each[44:108].rstrip(b"\0").decode() for each in self.came()}
        self.assertEqual({LIVE_NAME}, names)
