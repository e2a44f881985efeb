"""Bad nights by chance, as `tests/hostile.py` makes them: each answer is that of the pages."""

import os
import random
import sys
import unittest
from unittest import mock

import changes
import inputs
import nights
from expected import desk, receiver, runs, stream, typed
from hostile import Runner, first_failure
from program import CID, messages_in as without_remark
from wire import address_of, datagrams_at, receiver_socket
from worked import S1

CASES, SEED = 20_000, 1


def whole_steps(start, target, rate, elapsed):
    """A fade that falls to the next fine level at each step, where it must stay above it."""
    length, delay = rate
    if elapsed <= delay or elapsed >= delay + length:
        return start if elapsed < delay + length else target
    return start + (target - start) * (elapsed - delay) // length


@unittest.skipUnless(hasattr(os, "pidfd_open") and hasattr(os, "memfd_create"), "no Linux")
class Hostile(unittest.TestCase):
    def test_cases(self):
        """20,000 changed shows, lines, scripts and datagrams get the answers of PROFILE and
        FORMATS: with bytes flipped, lines cut, doubled and swapped, numbers at their bounds, odd
        spellings."""
        failure, done, ran = first_failure(CASES, SEED)
        print(f"    {done} cases in {ran} runs")
        if failure:
            self.fail(f"tests/hostile.py --seed {SEED}\n{failure}")
        self.assertGreaterEqual(done, CASES)

    def test_differences_are_found(self):
        """With one rule of the pages read wrongly, some case is answered otherwise."""
        for place, name, wrong in (
            (stream, "KEPT_ALIVE", 801),
            (receiver, "LOST", 2501),
            (desk, "fade", whole_steps),
        ):
            with self.subTest(name), mock.patch.object(place, name, wrong):
                self.assertIsNotNone(first_failure(CASES, SEED, seconds=0)[0])

    def test_signals_are_seen(self):
        """A program that a signal ends is no program that ended."""
        runner = Runner()
        self.addCleanup(runner.close)
        with mock.patch("hostile.PROGRAM", sys.executable):
            self.assertEqual(
                -11, runner.run(["-c", "import os; os.kill(os.getpid(), 11)"], b"").status
            )


class HostileLive(unittest.TestCase):
    """A night by the clock, in which whatever is typed."""

    def random_lines(self, r):
        """Lines by chance, with keys among them; none of them ends the night, or is too long for
        it."""
        while True:
            words = r.choice([inputs.command(r)] * 9 + [["where"], ["help"], ["?"]])
            line = changes.with_changes(
                r, inputs.spelling(r, words).encode("latin-1"), changes.OF_TEXTS, 3
            )
            if r.random() < 0.2:
                place = r.randrange(len(line) + 1)
                line = line[:place] + r.choice(inputs.KEYS) + line[place:]
            for each in line.split(b"\n"):
                asked = typed.request_in(each, 0)
                if len(each) < 150 and getattr(asked, "what", "") not in (typed.END, typed.LEAVE):
                    yield each

    def play_lines(self, r, lines):
        """What a night left in which these lines are typed in pieces, and the packets that
        came."""
        text = b"".join(line + b"\n" for line in lines)
        parts = []
        while text:
            part = r.randrange(1, 400)
            parts.append((0.02, text[:part]))
            text = text[part:]
        with receiver_socket() as socket:
            left = nights.play_night(nights.Typed(S1, tuple(parts)), CID, address_of(socket))
            return left, tuple(datagrams_at(socket))

    def test_cases(self):
        """400 random lines, typed in pieces: the record is the night. What is shown and sent is
        what the pages say of it; it has the lines that are commands, in order, and why others are
        none is told."""
        r = random.Random(SEED)
        lines = [line for line, _ in zip(self.random_lines(r), range(400))]
        left, came = self.play_lines(r, lines)
        self.assertEqual(0, left.status)
        found = [each for each in (typed.request_in(line, 0) for line in lines) if each]
        orders = [
            each.text
            for each in found
            if isinstance(each, typed.Asked) and each.what == typed.ORDER
        ]
        given = [line.split(b" ", 1)[1] for line in left.record]
        self.assertEqual(
            [*orders, b"master 0", b"end"], [line for line in given if line != b"tick"]
        )
        shown, helps = nights.without_help(left.shown)
        self.assertEqual(nights.expected_lines(S1, left.record, shown), shown)
        questions = [each.what for each in found if isinstance(each, typed.Asked)]
        self.assertEqual(questions.count(typed.HELP), helps)
        self.assertEqual(questions.count(typed.WHERE), len(nights.where_places(shown)))
        self.assertEqual(runs.play(S1, b"\n".join(left.record)).packets, came)
        self.assertEqual(list(self.refusals(lines)), without_remark(left.err).decode().splitlines())

    def refusals(self, lines):
        """What is told of lines, none of which is too long."""
        for line in lines:
            asked = typed.request_in(line, 0)
            if isinstance(asked, str):
                yield f"line refused: {typed.shown_line(line)}: {asked}"
            elif asked and asked.has_keys:
                yield "keys ignored"
