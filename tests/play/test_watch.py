"""`watch`: what changes on universes, from lines with moments and datagrams."""

import os
import random
import subprocess
import uuid

import inputs
import tooling  # noqa: F401  (it has the tools' folder on the path)
from expected import watch as expected
from program import CID, DEVICE_FAULT, PROGRAM, UNFIT, ProgramTest, messages_in, packet, run, text
from worked import watch_example, with_examples

from cueplayer_tools.conform.packets import discovery_packet, synchronization_packet

# More by hand.
NIGHTS = int(os.environ.get("CUEPLAYER_NIGHTS", "5000"))
IN_A_RUN, SEED = 50, 1
ON_TRIAL = (1, 2, 7, 63999)
SHORT = b"1000 0 ignored Unreadable Short 1\n"
LONGEST_LINE = 3072


def expected_outcome(lines, universes):
    """What the second reader makes of an input."""
    told, refused = expected.watch(lines, universes)
    err = b"" if refused is None else f"line {refused} refused\n".encode()
    return 4 if refused else 0, text(*told), err


@with_examples("moment", "datagram", "printed")
class Watch(ProgramTest):
    def assertExample(self, name):
        lines, printed = watch_example(name)
        self.assertRuns(["watch", "1", "2"], lines, out=printed)

    def assertWatches(self, lines, *universes):
        """The program and the second reader make the same of an input."""
        outcome = run("watch", *map(str, universes), stdin=lines)
        self.assertEqual(expected_outcome(lines, universes), tuple(outcome))

    def test_nights(self):
        """5,000 random nights of four universes are reported as the second reader has them. Six
        sources have names of any bytes, moments fall, and packets are damaged, cut, late or of no
        universe."""
        r = random.Random(SEED)
        for _ in range(NIGHTS // IN_A_RUN):
            self.assertWatches(inputs.watch_lines(r, IN_A_RUN, ON_TRIAL), *ON_TRIAL)

    def test_refused_lines(self):
        """A line of none of the forms, or of more than 3,072 bytes, ends the run; what was told
        before it stays."""
        before = b"0 00\n1000\n! a comment\n\n2000 ,\r\n"
        longest = b"2000" + b" " * (LONGEST_LINE - 4)
        for line in (
            b"x", b"-1", b"1.5", b"1234567890123456", b"1 0", b"1 0g", b"1 00 00",
            b"1 00 !" + b"x" * 3072,
            longest + b" ", b"\xff", b"0x1", b"1 \xe9\xe9",
        ):  # fmt: skip
            with self.subTest(line[:20]):
                self.assertRuns(["watch", "1"], before + line, 4, SHORT, b"line 6 refused\n")
        self.assertRuns(["watch", "1"], before + longest, out=SHORT)
        self.assertRuns(["watch", "1"], b"999999999999999 00\n" * 2, out=text(
            "999999999999999 0 ignored Unreadable Short 2"))

    def test_moment_that_falls(self):
        """It is skipped, told by its name, and changes nothing."""
        lines = text(
            f"1000 {packet(1, {1: 5}).hex()}", f"999 {packet(1, {1: 9}, 1).hex()}", "1100", "2000"
        )
        self.assertWatches(lines, 1)
        out = run("watch", "1", stdin=lines).out
        self.assertIn(b"2000 0 ignored Backwards 1\n", out)
        self.assertNotIn(b"1:9", out)

    def test_what_is_no_level(self):
        """Packets of E1.31 that carry no levels, whole and cut, are named with their counts, and
        dim nothing."""
        cid = uuid.UUID(CID).bytes
        named = {
            "Discovery": discovery_packet(cid, list(range(1, 513))),
            "Synchronization": synchronization_packet(cid, 7, 1),
        }
        lit = packet(1, {1: 5})
        lines = [f"0 {lit.hex()}"]
        for each in named.values():
            lines += [f"10 {each[:length].hex()}" for length in (43, 44, len(each), len(each))]
        for number, start in enumerate((0xDD, 0xDD, 0x17, 0xCC, 0xCF), 1):
            sent = lit[:111] + bytes([number]) + lit[112:125] + bytes([start]) + lit[126:]
            lines.append(f"20 {sent.hex()}")
        lines.append("1000")
        self.assertWatches(text(*lines), 1)
        out = run("watch", "1", stdin=text(*lines)).out.decode().splitlines()
        self.assertEqual(
            ["0 ignored Unreadable Short 2", "0 ignored Discovery 3", "0 ignored Synchronization 3",
             "1 ignored AltStart 3", "1 ignored PerAddressPriority 2", "1 slots 1:5"],
            [line.partition(" ")[2] for line in out[2:]],
        )  # fmt: skip

    def test_line_by_line(self):
        """What a line changes is printed before the next one is read."""
        child = subprocess.Popen(
            [PROGRAM, "watch", "1"], stdin=subprocess.PIPE, stdout=subprocess.PIPE
        )
        self.addCleanup(child.kill)
        with child:
            child.stdin.write(f"100 {packet(1, {1: 5}).hex()}\n".encode())
            child.stdin.flush()
            told = [child.stdout.readline() for _ in range(3)]
            name = f"cueplayer {CID}".encode()
            self.assertEqual([b"100 1 source %s priority 100\n" % name, b"100 1 leads %s\n" % name,
                              b"100 1 slots 1:5\n"], told)
            child.stdin.close()
            self.assertEqual(b"", child.stdout.read())
        self.assertEqual(0, child.returncode)

    def test_unfit_universes(self):
        many = [str(universe) for universe in range(1, 18)]
        for words in (["0"], ["64000"], ["1", "01"], ["1", "x"], ["1", "2", "1"], ["-"], [""],
        many,
                      ["1.0"], ["+1"], ["4294967297"]):  # fmt: skip
            with self.subTest(words):
                self.assertRuns(["watch", *words], b"0 00\n", status=2, err=UNFIT)
        self.assertRuns(["watch", *many[:-1]], b"0 00\n1000\n", out=SHORT)
        self.assertRuns(["watch", "063999"], b"0 00\n1000\n", out=SHORT)

    def test_refused_words(self):
        for words, telling in (([], b"<UNIVERSE>"), (["1", "--to"], b"'--to'")):
            with self.subTest(words):
                outcome = run("watch", *words)
                self.assertEqual((2, b""), (outcome.status, outcome.out))
                self.assertIn(telling, outcome.err)

    def test_output_that_fails(self):
        self.assertFullDisk(["watch", "1"], b"0 00\n1000\n")

    def test_input_that_fails(self):
        """A folder in place of a file, and an input that is closed."""
        words = [PROGRAM, "watch", "1"]
        folder = os.open("/", os.O_RDONLY | os.O_DIRECTORY)
        self.addCleanup(os.close, folder)
        for options in ({"stdin": folder}, {"preexec_fn": lambda: os.close(0)}):
            done = subprocess.run(words, capture_output=True, timeout=60, **options)
            self.assertEqual(
                (5, b"", DEVICE_FAULT), (done.returncode, done.stdout, messages_in(done.stderr))
            )
