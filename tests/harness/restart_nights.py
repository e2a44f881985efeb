"""What the tests of nights share that are killed and go on: by `--resume`, or by the script."""

import os
import tempfile
import time
from pathlib import Path

from live_nights import LiveTest
from machine import in_time
from program import CID, LIVE_NAME, PROGRAM, TOP, run, text
from restarts import HEAD, Ear, Judge, KilledNight, Wrong, moments
from wire import address_of, receiver_socket

# Two universes, in each of which something changes at nearly every tick of a move.
SHOW = text(
    "CUE 1", "UP 6", "CHAN 1@FL 2@70 3@H20",
    "CUE 2", "UP 5", "DOWN 4", "CHAN 1@10 2@FL 4@FL",
    "SUB 1", "CHAN 5@FL",
    "PATCH 1 1<1@FL 2<2@FL 5<9@50",
    "PATCH 1 1<513@60 2<514@FL 3<515@80 4<1024@FL",
)  # fmt: skip
SEED = int(os.environ.get("CUEPLAYER_SEED", 41))
# In milliseconds, of a machine that gives the program its processor: from a kill to the next
# packet at most, and how far moments may be off then.
DARK, OFF = 500, 100
# How often a night is killed until a kill fell between two ticks.
TRIES = 20
# A restart may take so much longer where the script starts the program and its writer.
BY_SCRIPT = 500
# Lines with comments and keys, some that are refused, and one that is not recorded.
HARD = b"goto 1 in 9 ! here\nGOTO  2\nback\nback\n\x1b[Ago\nwhere\ngroup 9 FL\n"


def next_tick(moment):
    """When a tick is due behind one at this moment."""
    return max(25 * (moment // 25 + 1), moment + 23)


class RestartTest(LiveTest):
    SHOW = SHOW

    def night(self, *options, show=SHOW, **kept):
        """A night that may be killed; nothing of it runs yet."""
        folder = Path(tempfile.mkdtemp(dir=self.folder))
        night = KilledNight(folder, show, *options, **kept)
        self.addCleanup(night.close)
        return night

    def killed_night(self, *lines, pause=0.3, **kept):
        """A night that was killed so many seconds behind these lines, which it had answered."""
        night = self.night(**kept)
        night.begin()
        night.light(2)
        night.type_commands(b"".join(lines))
        time.sleep(pause)
        night.kill()
        return night

    def killed_between_ticks(self, *lines):
        """A night that was killed when it had sent all that its record means: the kill itself lost
        no packet."""
        for _ in range(TRIES):
            night = self.killed_night(*lines)
            if night.is_at_rest():
                return night
        raise Wrong(f"{TRIES} kills, and none fell between two ticks")

    def assertEnds(self, night):
        """The process that runs brings the night to its end."""
        self.assertEqual(0, night.end())

    def assertGoesOn(self, night):
        """A night that was killed is taken up, and ends."""
        night.begin()
        night.light()
        self.assertEnds(night)

    def replay(self, night, *options):
        """The packets that `play` sends of a night's record."""
        ear = Ear(receiver_socket())
        if "--name" not in options:
            options = (*options, "--name", LIVE_NAME)
        words = ["play", night.show, "--to", address_of(ear.receiver), "--cid", CID, *options]
        outcome = run(*words, stdin=night.record.read_bytes())
        ear.settle()
        ear.close()
        self.assertEqual((0, b""), (outcome.status, outcome.err))
        return [each.packet for each in ear.heard]

    def assertOne(self, night, *options, **source):
        """The record is one, which `play` takes whole, and what was heard of all processes is its
        stream. Answers the figures."""
        judge = Judge(night, **source)
        figures = judge.figures()
        meant = [each.packet for each in judge.sent]
        self.assertEqual(meant, self.replay(night, *options))
        self.assertEqual(len(meant) - 1, judge.places[-1])
        record = night.record.read_bytes()
        self.assertEqual(1, len(HEAD.findall(record)))
        ticks = moments(record)
        self.assertLessEqual(23, min(b - a for a, b in zip(ticks, ticks[1:])))
        return figures

    def assertTaken(self, night, *options, dark=DARK, **source):
        """A night that has ended was taken up soon at each kill, and moments went on."""
        figures = self.assertOne(night, *options, **source)
        print(
            f"    {len(night.kills)} kills: at most {figures.dark():.0f} ms to the next packet,"
            f" {figures.lost} packets lost, moments at most {figures.drift():.0f} ms off"
        )
        for each in figures.gaps:
            in_time(each, dark, "from a kill to the next packet")
        for each in figures.drifts:
            in_time(each, OFF, "moments are off")


class ByTheScript:
    """Has the script start each process of a night, and with it one that writes the record."""

    def night(self, *options, **kept):
        environment = os.environ | {"CUEPLAYER": str(PROGRAM)}
        return super().night(*options, program=TOP / "cueplayer", env=environment, **kept)

    def assertTaken(self, night, *options, dark=DARK + BY_SCRIPT, **source):
        super().assertTaken(night, *options, dark=dark, **source)
