"""Each growth of a run's memory refused in turn: the run then tells its want of memory and prints
nothing, or ends as it does with all memory. And: once a run is open, it asks for no memory."""

import fcntl
import os
import re
import subprocess
import time

from growths import COMMANDS, MOVING_SHOW, SHOW, Growths, every_line
from listeners import Listener
from program import CID, PROGRAM, TO_NOBODY, Outcome, messages_in, packet, run, text

MEMORY = Outcome(6, b"", b"memory\n")


class RefusedGrowths(Growths):
    def run_without(self, growth, words, stdin):
        """How the run ends where the growth of this number is refused; its moments are left out.

        The input is a file: of a pipe the pieces come as they will, and the growths by them.
        """
        outcome = self.run_preloaded(words, stdin, self.environment(growth))
        return outcome._replace(out=re.sub(rb"^\d+ ", b"", outcome.out, flags=re.MULTILINE))

    def assertEachRefused(self, words, stdin, has_remark=False):
        whole = self.run_without(0, words, stdin)
        growths, _ = self.growths()
        self.assertNotIn(b"memory", whole.err)
        refused = 0
        for growth in range(1, growths + 1):
            with self.subTest(words=words, growth=growth):
                outcome = self.run_without(growth, words, stdin)
                self.assertIn(outcome, (MEMORY, whole))
                refused += outcome == MEMORY
        # A block that is made smaller may stay where it is; without memory for the name of a
        # record that was made for nothing, that stays; and a remark that cannot be made is left
        # out.
        self.assertTrue(has_remark or refused >= growths - 2)
        self.assertGreater(refused, 0)
        # And where the growth after the last would be refused, none is.
        self.assertEqual(whole, self.run_without(growths + 1, words, stdin))
        self.assertEqual(growths, self.growths()[0])

    def test_check(self):
        self.assertEachRefused(["check", "-"], SHOW)

    def test_look(self):
        self.assertEachRefused(["look", "-", "7", "--cid", CID], SHOW)

    def test_slots(self):
        self.assertEachRefused(["slots", "-", "7"], SHOW)

    def test_explain(self):
        self.assertEachRefused(["explain", "-"], SHOW + b"WHAT\nCHAN 99@FL\n" * 20)

    def test_cues(self):
        show = SHOW + b"TEXT a label\nSUB 9 ! another\n"
        for words in (["cues", "-"], ["cues", "--json", "-"]):
            self.assertEachRefused(words, show)

    def test_play(self):
        words = ["play", self.show, *TO_NOBODY]
        self.assertEachRefused(words, b"0 go\n0 tick\n25 sub 1 50\n25 tick\n50 end\n50 tick\n")

    def test_targets(self):
        """Two targets, for which the show is read to see whether they suit it."""
        two = ("127.0.0.1:9", "127.0.0.2:9")
        words = ["play", self.show, "--to", *two, "--cid", CID]
        self.assertEachRefused(words, b"0 tick\n25 end\n25 tick\n")

    def test_live(self):
        """A night that is over after three ticks."""
        self.assertEachRefused(["live", self.show, *TO_NOBODY], b"go\nend\n")

    def test_record_in_use(self):
        """Without memory to find who keeps the record, its process is not told."""
        record = self.file("night.play", b"")
        words = ["live", self.show, *TO_NOBODY, "--record", record]
        with open(record, "rb") as kept:
            fcntl.flock(kept, fcntl.LOCK_EX)
            whole = self.run_without(0, words, b"")
            growths, _ = self.growths()
            self.assertEqual(4, whole.status)
            named = rb"^record: in use by process %d\b" % os.getpid()
            self.assertRegex(whole.err, named)
            nobody = whole._replace(err=whole.err.replace(b" by process %d" % os.getpid(), b""))
            seen = {self.run_without(growth, words, b"") for growth in range(1, growths + 1)}
            self.assertIn(nobody, seen)
            self.assertLessEqual(seen, {MEMORY, whole, nobody})

    def test_rehearse(self):
        lines = [f"console 1 10{n} {CID[:-1]}{n}" for n in range(2)] + ["receiver 1", "receiver 2"]
        lines += ["0 do 0 go", "0 do 1 sub 1 50", "0 stray 0 00", "0 stray 1"]
        for k in range(12):
            lines += [f"{25 * k} do 0 sub 2 {k}", f"{25 * k} tick 0", f"{25 * k} tick 1"]
            lines += [f"{25 * k} deliver {n} 0 {n + 1} {k}" for n in range(2)] + [
                f"{25 * k} slots 0"
            ]
        script = self.folder / "night.script"
        script.write_bytes(text(*lines))
        self.assertEachRefused(["rehearse", self.show, script], b"")

    def test_watch(self):
        """Each allocation of `watch` is refused: what was printed at the lines before stays."""
        words = ["watch", "1", "2"]
        lines = text(*(f"{200 * n} {watch_datagram(n).hex()}" for n in range(8)), "9000")
        whole = self.run_preloaded(words, lines, self.environment(0))
        growths, _ = self.growths()
        self.assertEqual((0, b""), (whole.status, whole.err))
        self.assertGreater(growths, 8)
        for growth in range(1, growths + 1):
            with self.subTest(growth=growth):
                outcome = self.run_preloaded(words, lines, self.environment(growth))
                if outcome != whole:
                    self.assertEqual((MEMORY.status, MEMORY.err), (outcome.status, outcome.err))
                    self.assertTrue(whole.out.startswith(outcome.out) and outcome.out != whole.out)

    def test_words(self):
        """Of each line, words that ask for help, that the parser refuses, and that lack their
        form."""
        for words in (
            ["--help"],
            ["look", "-"],
            ["check", "a", "b"],
            ["rehearse", "a"],
            ["explain"],
        ):
            self.assertEachRefused(words, b"")
        night = ["a", "--to", "127.0.0.1", "--cid", CID, "--priority"]
        for words in (
            ["look", "-", "x", "--cid", CID],
            ["slots", "-", "1", "--base", "0"],
            ["play", *night, "201"],
            ["live", *night, "x", "--record", "b"],
            ["listen", "127.0.0.1", "1", "0"],
            ["watch", "1", "1"],
        ):
            self.assertEachRefused(words, b"", has_remark=True)


def watch_datagram(n):
    """A datagram of a night of `watch`, by its number: of seven sources, some of them
    strangers."""
    cid = f"{CID[:-1]}{n % 7}"
    sent = packet(
        1 + n % 3, {1 + n % 512: 255}, 3 * n % 256, 0x40 * (n % 13 == 0), 100 + n % 2, cid
    )
    return sent[: 638 if n % 5 else 30]


class NoGrowths(Growths):
    """Once `play` is open, or the first datagram is there, no memory is asked for. What is asked
    for before is all that is asked for."""

    SHOW = MOVING_SHOW

    def assertNoneAfterTheFirst(self):
        growths, before = self.growths()
        self.assertGreaterEqual(before, 0)
        self.assertEqual(before, growths)

    def test_play(self):
        """It asks for as much as a play that ends before its first line: so at its first tick for
        none."""
        words = ["play", self.show, *TO_NOBODY]
        run(*words, stdin=b"", env=self.environment(0))
        opened, _ = self.growths()
        lines = every_line()
        outcome = run(*words, stdin=text(*lines), env=self.environment(0))
        self.assertEqual((4, text(f"line {len(lines)} refused")), (outcome.status, outcome.err))
        self.assertIn(b" s", outcome.out.replace(b"1:", b" "))
        self.assertEqual((opened, opened), self.growths())

    def test_live(self):
        """Commands, refused lines, a record, and the end."""
        record = self.folder / "night.play"
        words = ["live", self.show, *TO_NOBODY, "--record", record]
        words.append("--end-with-input")
        night = subprocess.Popen(
            [PROGRAM, *words],
            stdin=subprocess.PIPE,
            stdout=subprocess.PIPE,
            stderr=subprocess.PIPE,
            bufsize=0,
            env=self.environment(0),
        )
        self.addCleanup(night.kill)
        while b" tick" not in (record.read_bytes() if record.exists() else b""):
            time.sleep(0.01)
        for line in (*COMMANDS, "jump", "x" * 300):
            night.stdin.write(text(line))
            time.sleep(0.03)
        _, err = night.communicate(timeout=60)
        err = messages_in(err)
        self.assertEqual((0, 2), (night.returncode, err.count(b"line refused")))
        self.assertNoneAfterTheFirst()

    def test_listen(self):
        """Sources that come and go, a stranger, and what is no packet."""
        listener = Listener(count=100, env=self.environment(0))
        self.addCleanup(listener.abandon)
        for n in range(100):
            cid = f"{CID[:-1]}{n % 7}"
            sent = packet(
                1 + n % 11 // 10, {1 + n: 255}, 3 * n % 256, 0x40 * (n % 13 == 0), cid=cid
            )
            listener.send(sent[: 638 if n % 5 else 130])
            self.assertNotEqual(b"(no line)", listener.line())
        status, out, err = listener.close()
        self.assertEqual((0, b""), (status, err))
        self.assertTrue(out.startswith(b"slots "))
        self.assertNoneAfterTheFirst()
