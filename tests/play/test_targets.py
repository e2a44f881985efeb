"""`--to`, once or more: which universe goes where, by a second reader; and words of the source."""

import random
import subprocess

import inputs
from expected import targets as expected
from program import CID, PROGRAM, FolderTest, packet, run, text
from wire import datagrams_at, receiver_socket

SHOW = text("CUE 1", "UP 0", "CHAN 1@H80", "PATCH 1 1<1@FL 1<513@FL")
ONE_TICK = b"0 goto 1\n10 tick\n"
CASES, SEED = 200, 5
TARGET = (
    "a target is an address, as 10.0.0.7 or 10.0.0.7:5568, with or without its universes,"
    " as 3=10.0.0.7 or 1-8=10.0.0.7"
)
NAME = "a name is a text of 1 to 63 bytes, without control characters"
TTL = "a TTL is a number from 1 to 255"
NO_TARGET = "has no target: --to names none for it, and none for all"
TWICE = "has the target 127.0.0.2:5568 twice"
TWICE_IN_A_GROUP = "has the target 239.255.0.1:5568 twice"


class TargetTest(FolderTest):
    SHOW = SHOW

    def remark_on(self, *words):
        """The remark of both jobs on these words. Nothing is printed, and no record is made."""
        told = set()
        record = self.folder / "night.play"
        for job in (["play"], ["live", "--record", record]):
            words_of_job = [PROGRAM, *job, self.show, "--cid", CID, *words]
            done = subprocess.run(words_of_job, input=ONE_TICK, capture_output=True, timeout=60)
            self.assertEqual((2, b""), (done.returncode, done.stdout), words)
            self.assertFalse(record.exists())
            first, _, remark = done.stderr.decode().partition("\n")
            self.assertEqual("words refused", first)
            told.add(remark.removesuffix("\n"))
        self.assertEqual(1, len(told), words)
        return told.pop()


class Words(TargetTest):
    def test_no_target(self):
        """Words that are none, also behind others."""
        to = ("--to", "127.0.0.1")
        for word in (
            *("", "=", "1=", "=127.0.0.1", "0=127.0.0.1", "64000=127.0.0.1", "1=2=127.0.0.1", "x"),
            *(f"{n}=127.0.0.1" for n in ("2-1", "0-1", "1-64000", "1-", "-1", "1-2-3", "1,2")),
            *("1 =127.0.0.1", "1= 127.0.0.1", "1=127.0.0.1:", "1=127.0.0.1:65536", "1=127.0.0"),
            *(
                "1=localhost",
                "1=256.0.0.1",
                "0000000001=127.0.0.1",
                "127.0.0.1=1",
                "1=127.0.0.1/8",
            ),
        ):
            with self.subTest(word):
                self.assertIsNone(expected.target(word))
                told = f"--to `{word}`: {TARGET}"
                self.assertEqual(told, self.remark_on(f"--to={word}"))
                self.assertEqual(told, self.remark_on(*to, f"--to={word}", "--to=y"))

    def test_source(self):
        for name, form, *words in (
            ("name", NAME, "", "n" * 64, "\u00e9" * 32, "two\nlines", "\x1b[31m", "\x7f"),
            ("ttl", TTL, "", "0", "256", "-1", "x", "1.0", "0000000001"),
        ):
            for word in words:
                with self.subTest(name=name, word=word):
                    letters = (chr(byte) for byte in word.encode())
                    shown = "".join(each if " " <= each <= "~" else "?" for each in letters)
                    told = self.remark_on("--to=127.0.0.1", f"--{name}={word}")
                    self.assertEqual(f"--{name} `{shown}`: {form}", told)

    def test_given_twice(self):
        """Only --to may stand more than once."""
        for option in ("--interface=lo", "--any-route", "--name=x", "--ttl=2"):
            words = ("play", self.show, "--cid", CID, "--to=127.0.0.1", option, option)
            outcome = run(*words, stdin=ONE_TICK)
            self.assertEqual((2, b""), (outcome.status, outcome.out), option)
            self.assertIn(b"error: ", outcome.err)

    def test_any_route(self):
        """It goes with a card."""
        told = self.remark_on("--to=127.0.0.1", "--any-route")
        form = "any route goes beside a card: --interface CARD names it"
        self.assertRegex(told, rf"^--any-route( `true`)?: {form}$")

    def test_misfits(self):
        """Targets that do not fit the universes of the show, which are 1 and 2."""
        for words, told in (
            (("1=127.0.0.1",), f"universe 2 {NO_TARGET}"),
            (("127.0.0.1", "3=127.0.0.1"), "--to names universe 3: the show does not have it"),
            (("127.0.0.1", "2-3=127.0.0.1"), "--to names universe 3: the show does not have it"),
            (("127.0.0.1", "127.0.0.1:5568"), "universe 1 has the target 127.0.0.1:5568 twice"),
            (("127.0.0.1", "2=127.0.0.2", "1-2=127.0.0.2"), f"universe 2 {TWICE}"),
            (("239.255.0.0", "1=239.255.0.0", "1=239.255.0.1"), f"universe 1 {TWICE_IN_A_GROUP}"),
        ):
            with self.subTest(words):
                self.assertEqual(told, self.remark_on(*(f"--to={word}" for word in words)))

    def test_base(self):
        """Universes are those that are sent."""
        for words, told in (
            (("127.0.0.1", "1=127.0.0.2"), "--to names universe 1: the show does not have it"),
            (("7=127.0.0.1",), f"universe 8 {NO_TARGET}"),
        ):
            self.assertEqual(told, self.remark_on("--base=7", *(f"--to={word}" for word in words)))

    def test_count(self):
        """At most 64 targets."""
        words = [f"--to=127.0.0.1:{6000 + port}" for port in range(65)]
        told = "--to `127.0.0.1:6064`: a night has at most 64 targets"
        self.assertEqual(told, self.remark_on(*words))
        done = run("play", self.show, "--cid", CID, *words[:64], stdin=ONE_TICK)
        self.assertEqual(0, done.status)

    def test_no_universe(self):
        """A show without a patched dimmer has no use for a target of one universe."""
        self.show.write_bytes(text("CUE 1"))
        words = ("play", self.show, "--cid", CID)
        self.assertEqual(0, run(*words, "--to=127.0.0.1", stdin=ONE_TICK).status)
        self.assertEqual(2, run(*words, "--to=1=127.0.0.1", stdin=ONE_TICK).status)


class Chance(TargetTest):
    """Targets by chance, to receivers at some addresses of this machine."""

    def setUp(self):
        super().setUp()
        self.receivers = [receiver_socket(f"127.0.0.{last}") for last in (1, 1, 2, 3)]
        for each in self.receivers:
            self.addCleanup(each.close)
        self.ports = [each.getsockname() for each in self.receivers]

    def test_chance(self):
        """What is refused, and else which packets come to each address, in their order."""
        r = random.Random(SEED)
        sent = 0
        for case in range(CASES):
            universes = sorted(r.sample(range(1, 17), r.choice([1, 1, 2, 3, 4])))
            base = r.choice([1, 1, 300, 63999 - max(universes)])
            words = inputs.target_words(r, [base + n - 1 for n in universes], self.ports)
            with self.subTest(case=case, words=words, universes=universes, base=base):
                sent += self.assertPlays(universes, base, words)
        self.assertGreater(sent, CASES // 4)

    def assertPlays(self, universes, base, words):
        """A run of one tick; whether it was accepted."""
        patch = " ".join(f"1<{512 * (n - 1) + 1}@FL" for n in universes)
        self.show.write_bytes(text("CUE 1", "UP 0", "CHAN 1@H80", f"PATCH 1 {patch}"))
        options = [f"--to={word}" for word in words]
        named = [expected.target(word) for word in words]
        on_wire = [base + n - 1 for n in universes]
        lacking = [word for word, each in zip(words, named) if each is None]
        wrong = f"--to `{lacking[0]}`: {TARGET}" if lacking else expected.misfit(on_wire, named)
        if wrong:
            self.assertEqual(wrong, self.remark_on("--base", str(base), *options))
            return False
        out = run("play", self.show, "--cid", CID, "--base", str(base), *options, stdin=ONE_TICK)
        shown = "10 live" + "".join(f" {universe}:s0" for universe in on_wire)
        self.assertEqual((0, text("0 ok", shown), b""), tuple(out))
        for receiver, at in zip(self.receivers, self.ports):
            addresses = {n: expected.addresses(n, named) for n in on_wire}
            here = [
                n for n in on_wire for to in addresses[n] if to.text() == "{}:{}".format(*at)
            ]
            self.assertEqual([packet(n, {1: 128}) for n in here], datagrams_at(receiver, 0))
        return True
