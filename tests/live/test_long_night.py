"""`live`: a night of two minutes at sixteen universes, in which outputs stall, readers die and
floods come.

SECONDS and SEED of the environment, as CUEPLAYER_NIGHT=600 and CUEPLAYER_SEED=7, make another
night.
"""

import hashlib
import os
import random
import select
import signal
import socket
import subprocess
import threading
import time

from live_nights import LiveTest
from machine import in_time, took
from program import LIVE_NAME, PROGRAM, behind_head, text
from wire import OPTIONS, SEQUENCE

SECONDS = float(os.environ.get("CUEPLAYER_NIGHT", 120))
SEED = int(os.environ.get("CUEPLAYER_SEED", 38))
UNIVERSES = 16
# How late a tick and a press may be, in milliseconds.
ALLOWED = 60
# From one tick to the next, and what a line waits for at most where nothing is late.
APART, TURN = 25, 50
UNIVERSE, SLOT = 113, 126 + 511


def show():
    """Sixteen universes that all move for as long as the night; the last slot is submaster 1's
    alone."""
    channels = " ".join(f"{n}@FL" for n in range(1, UNIVERSES + 1))
    moving = [f"PATCH 1 {n}<{512 * (n - 1) + 1}@FL" for n in range(1, UNIVERSES + 1)]
    return text(
        "CUE 1", f"UP {min(int(SECONDS), 180)}", f"CHAN {channels}",
        "SUB 1", "CHAN 400@FL",
        *moving, f"PATCH 1 400<{512 * UNIVERSES}@FL",
    )


class Reader(threading.Thread):
    """Reads an output, but not while it is to stall; it dies where it is asked to."""

    def __init__(self, pipe):
        super().__init__(daemon=True)
        self.pipe, self.stalled, self.is_dead, self.lines = pipe, threading.Event(), False, 0
        self.start()

    def run(self):
        while not self.is_dead:
            if self.stalled.is_set():
                time.sleep(0.05)
            elif select.select([self.pipe], [], [], 0.05)[0]:
                block = os.read(self.pipe.fileno(), 4096)
                self.lines += block.count(b"\n")
                if not block:
                    return
        self.pipe.close()


class Receiver(threading.Thread):
    """Takes every datagram: when it came, whose it is, its number and its last slot; and a digest
    of all."""

    def __init__(self, receiver):
        super().__init__(daemon=True)
        self.receiver, self.came, self.is_over, self.digest = receiver, [], False, hashlib.sha256()
        self.start()

    def run(self):
        while not self.is_over:
            if select.select([self.receiver], [], [], 0.1)[0]:
                self.take(self.receiver.recv(1500))

    def take(self, each):
        self.digest.update(each)
        universe = int.from_bytes(each[UNIVERSE : UNIVERSE + 2], "big")
        self.came.append((time.monotonic(), universe, each[SEQUENCE], each[SLOT], each[OPTIONS]))


class LongNight(LiveTest):
    SHOW = show()

    def setUp(self):
        super().setUp()
        try:
            self.receiver.setsockopt(socket.SOL_SOCKET, 33, 1 << 23)  # SO_RCVBUFFORCE
        except PermissionError:
            pass
        self.random = random.Random(SEED)
        self.presses = []

    def begin(self):
        fifo, self.kept = self.folder / "record", self.folder / "night.play"
        os.mkfifo(fifo)
        self.writer = subprocess.Popen(["sh", "-c", 'exec cat "$0" >"$1"', fifo, self.kept])
        self.addCleanup(self.writer.kill)
        self.heard = Receiver(self.receiver)
        self.night = self.begin_night("--record", fifo)
        self.readers = [Reader(self.night.stdout), Reader(self.night.stderr)]

    def press(self):
        level = 1 + len(self.presses) % 250
        self.presses.append((time.monotonic(), level))
        self.night.stdin.write(b"sub 1 H%02X\n" % level)

    def flood(self):
        self.night.stdin.write(b"no such command\n" * 300 + b"group 9 FL\n" * 300)

    def stall(self, reader):
        reader.stalled.set()
        threading.Timer(self.random.uniform(1, 8), reader.stalled.clear).start()

    def stall_record(self):
        self.writer.send_signal(signal.SIGSTOP)
        threading.Timer(
            self.random.uniform(1, 8), lambda: self.writer.send_signal(signal.SIGCONT)
        ).start()

    def play(self):
        """What happens, by chance; towards the end both readers die."""
        start = time.monotonic()
        self.night.stdin.write(b"go\n")
        while (elapsed := time.monotonic() - start) < SECONDS:
            time.sleep(self.random.uniform(0.1, 0.6))
            event = self.random.choice(
                ("press", "press", "press", "flood", "out", "err", "record")
            )
            if event == "press":
                self.press()
            elif event == "flood":
                self.flood()
            elif event == "record":
                self.stall_record()
            else:
                self.stall(self.readers[event == "err"])
            for reader, share in zip(self.readers, (0.6, 0.8)):
                reader.is_dead = reader.is_dead or elapsed > share * SECONDS
        self.writer.send_signal(signal.SIGCONT)
        # The last press is to be seen before the light goes down.
        time.sleep(0.5)

    def end(self):
        self.night.stdin.write(b"end\n")
        self.assertEqual(0, self.night.wait(timeout=30))
        self.writer.send_signal(signal.SIGCONT)
        self.assertEqual(0, self.writer.wait(timeout=30))
        time.sleep(0.3)
        self.heard.is_over = True
        self.heard.join()

    def shown_presses(self):
        """Of each press how long it took to the first datagram of the last universe that shows it,
        or one behind it, where the machine stood still from the one to the other."""
        shown = [
            (at, slot) for at, universe, _, slot, _ in self.heard.came if universe == UNIVERSES
        ]
        place = 0
        for number, (at, _) in enumerate(self.presses):
            levels = {level for _, level in self.presses[number : number + 100]}
            while place < len(shown) and (shown[place][0] < at or shown[place][1] not in levels):
                place += 1
            self.assertLess(place, len(shown), "a press is not shown")
            yield took(at, shown[place][0])

    def assertRealTime(self, lines):
        """Each press is recorded at the moment at which it was made, or a turn later: the clock of
        the night is the machine's from its first minute to its last."""
        moments = [int(moment) / 1000 for moment, *words in lines if words[:2] == ["sub", "1"]]
        self.assertEqual(len(self.presses), len(moments))
        zeros = [pressed - moment for moment, (pressed, _) in zip(moments, self.presses)]
        for (pressed, _), zero in zip(self.presses, zeros):
            late = took(pressed, pressed + max(zeros) - zero)
            in_time(late, TURN + ALLOWED, "a press by its moment")

    def replay(self):
        """The digest of what `play` of the record sends, four lines at a time."""
        words = [PROGRAM, "play", *self.words(holds=True)[1:], "--name", LIVE_NAME]
        play = subprocess.Popen(words, stdin=subprocess.PIPE, stdout=subprocess.PIPE)
        heard, lines = hashlib.sha256(), behind_head(self.kept.read_bytes())
        for first in range(0, len(lines), 4):
            part = lines[first : first + 4]
            play.stdin.write(text(*part))
            play.stdin.flush()
            for _ in part:
                play.stdout.readline()
            for each in self.came(wait=0):
                heard.update(each)
        play.communicate(timeout=30)
        return heard.hexdigest()

    def test_night(self):
        """Two minutes of floods, stalls and readers that die, on sixteen universes: no tick, press
        or packet is late or off its place. Each press is recorded at its moment, and `play` of the
        record sends the same."""
        self.begin()
        self.play()
        self.end()
        lines = [line.split() for line in behind_head(self.kept.read_bytes())]
        self.assertEqual(
            [], [words for words in lines if words[0] == "!"], "the record lacks lines"
        )
        ticks = [int(moment) for moment, *words in lines if words == ["tick"]]
        gaps = [b - a for a, b in zip(ticks, ticks[1:])]
        presses = list(self.shown_presses())
        latest = max(each.ms for each in presses)
        print(
            f"    {len(ticks)} ticks at most {max(gaps)} ms apart, {len(presses)} presses at "
            f"most {latest:.0f} ms,"
            f" {len(self.heard.came)} datagrams"
        )
        self.assertGreaterEqual(min(gaps), 23)
        for before, after in zip(ticks, ticks[1:]):
            in_time(self.between(before, after), APART + ALLOWED, f"the tick behind {before}")
        for press in presses:
            in_time(press, TURN + ALLOWED, "a press")
        self.assertRealTime(lines)
        for universe in range(1, UNIVERSES + 1):
            numbers = [number for _, which, number, _, _ in self.heard.came if which == universe]
            self.assertEqual([k % 256 for k in range(len(numbers))], numbers)
        self.assertEqual(self.heard.digest.hexdigest(), self.replay())
