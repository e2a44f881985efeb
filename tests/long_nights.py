#!/usr/bin/env python3
"""Long nights: the processes of a night in a folder are killed and stopped by chance, and its files
taken out of it, while commands are given, over a small disk that fills and empties, in a language
with a decimal comma. Behind each of these `status` has to say that all is well again. At last all
that was heard is held against what the record means.

usage: tests/long_nights.py [TIMES [SEED]]

TIMES is how often something is done to it, by default 200. It runs in a network and under
mounts of its own, and prints one line of JSON: the figures, and what was not as it must be.
Status 0: all was. 1: something was not. 77: this machine has no such namespaces, or no such tools.
"""

import contextlib
import json
import os
import random
import re
import shutil
import signal
import subprocess
import sys
import tempfile
import time
import uuid
from collections import Counter
from pathlib import Path
from types import SimpleNamespace
from typing import Any

sys.dont_write_bytecode = True
sys.path.insert(0, str(Path(__file__).resolve().parent / "harness"))

from folders import NIGHT  # noqa: E402
from languages import make_language  # noqa: E402
from machine import by_clock, witness  # noqa: E402
from program import PROGRAM, text  # noqa: E402
from restarts import Ear, Judge, Kill, Wrong  # noqa: E402
from tooling import PATIENCE  # noqa: E402
from wire import address_of, receiver_socket  # noqa: E402

from cueplayer_tools.keeper.pipes import RECORD, REPLIES, LivePipes  # noqa: E402
from cueplayer_tools.keeper.states import state_of  # noqa: E402

TIMES, SEED = 200, 2026
DISK = "12m"
SKIPPED = 77
DISK_TURNED = "disk filled or emptied"
INSIDE = "CUEPLAYER_LONG_NIGHT"
CUES, CHANNELS = 12, 120
NAME = "long night"
# From one packet to the next at most, in milliseconds, and how long a night may take to be whole.
LONGEST, WHOLE = 1000.0, 15.0
# For how long a process stays stopped that nothing lets go on, and what comes behind an `end` is
# listened for, in seconds.
STOPPED, BEHIND = 1.0, 3.0
WHO = ("live", "spare", "keeper", "record", "replies", "both")
# What is taken out of the folder, one act of so many; what of it is put back without room.
FILES, ONE_OF = ("record", "in", "night", "show", "lock", "pid", "spare"), 5
# How `status` ends where all is well, and on a disk that is full.
WELL, FULL, OVER = 0, 4, 1


def show(chance: random.Random) -> bytes:
    """Looks that are far apart, each reached in ten seconds: the light moves with each tick."""
    lines = []
    for cue in range(1, CUES + 1):
        levels = " ".join(f"{n}@{chance.randint(0, 99):02d}" for n in range(1, CHANNELS + 1))
        lines += [f"CUE {cue}", "UP 10", *(f"CHAN {part}" for part in parts(levels))]
    lines += ["SUB 1", "CHAN 1@FL"]
    lines += [f"PATCH 1 {n}<{n}@FL" for n in range(1, CHANNELS + 1)]
    return text(*lines)


def parts(levels: str) -> list[str]:
    """Pairs of levels, as many as a line has room for."""
    words = levels.split()
    return [" ".join(words[at : at + 10]) for at in range(0, len(words), 10)]


class Disk:
    """A small disk, which may be filled by others."""

    def __init__(self, place: Path) -> None:
        self.fill = place / "fill"

    def turn(self) -> None:
        """Fills it, or empties it."""
        if self.fill.exists():
            self.fill.unlink()
            return
        with contextlib.suppress(OSError), open(self.fill, "wb", buffering=0) as file:
            while True:
                file.write(bytes(4096))


class LongNight:
    """A night that is kept going, all that was heard of it, and what was done to it."""

    def __init__(self, place: Path, chance: random.Random) -> None:
        self.place, self.chance, self.disk = place, chance, Disk(place)
        self.night, self.show = place / "night", show(chance)
        (place / "show.asc").write_bytes(self.show)
        receiver = receiver_socket()
        self.ear = Ear(receiver)
        self.cid = str(uuid.uuid4())
        self.words = [place / "show.asc", "--to", address_of(receiver), "--cid", self.cid]
        self.words += ["--name", NAME]
        self.kills: list[Kill] = []
        self.done: Counter[str] = Counter()
        # Presses that were not carried out, or not answered, as they were told.
        self.missed: list[str] = []
        # Control-C ends it early, and what was done is judged.
        self.is_over = False
        signal.signal(signal.SIGINT, self.leave)
        self.wrong: list[str] = []

    def leave(self, *_: object) -> None:
        self.is_over = True

    def run(self, *words: object) -> "subprocess.CompletedProcess[str]":
        line = [str(NIGHT), str(self.night), *map(str, words)]
        return subprocess.run(line, capture_output=True, text=True, timeout=4 * PATIENCE)

    def number(self, name: str) -> int:
        """Which process that is; 0 where none is."""
        with contextlib.suppress(OSError, ValueError):
            if name in ("record", "replies"):
                place = RECORD if name == "record" else REPLIES
                return LivePipes(self.number("live")).find_writer(place) or 0
            file = {"live": "pid", "keeper": "lock"}.get(name, name)
            number = int((self.night / file).read_text())
            return number if state_of(number) not in ("", "Z") else 0
        return 0

    def is_whole(self) -> bool:
        """Whether all of its processes are there, and the spare has taken up the record."""
        numbers = [self.number(name) for name in WHO[:-1]]
        return all(numbers) and len(set(numbers)) == len(numbers) and self.is_taken_up()

    def is_taken_up(self) -> bool:
        spare = self.number("spare")
        with contextlib.suppress(OSError):
            program = os.readlink(f"/proc/{spare}/exe")
            opened = [os.stat(each) for each in Path(f"/proc/{spare}/fd").iterdir()]
            record = os.stat(self.night / "record")
            is_open = any(os.path.samestat(each, record) for each in opened)
            return Path(program).name == PROGRAM.name and is_open
        return False

    def become_whole(self) -> None:
        until = time.monotonic() + WHOLE
        while not self.is_whole():
            if time.monotonic() > until:
                numbers = {name: self.number(name) for name in WHO[:-1]}
                raise Wrong(f"not whole within {WHOLE:.0f} s: {numbers}")
            time.sleep(0.02)
        # It has read what was recorded before.
        time.sleep(0.2)

    def become_well(self) -> None:
        """Waits until `status` says so."""
        until = time.monotonic() + WHOLE
        while (done := self.run("status")).returncode != WELL:
            if self.disk.fill.exists() and done.returncode == FULL:
                return
            if time.monotonic() > until:
                told = "; ".join(re.findall("(?m)^trouble.*", done.stdout)) or done.stderr.strip()
                self.wrong.append(f"status {done.returncode} behind {WHOLE:.0f} s: {told}")
                return
            time.sleep(0.2)

    def begin(self) -> None:
        witness()
        done = self.run("start", *self.words, "--background")
        if done.returncode:
            raise Wrong(f"it does not begin: {done.stdout}{done.stderr}")
        self.become_whole()
        self.press()

    def press(self) -> None:
        """Gives a command, which moves the light, and is answered."""
        choices = [f"goto {self.chance.randint(1, CUES)}", f"sub 1 {self.chance.randint(0, 99)}"]
        done = self.run(*self.chance.choice([choices[0], *choices]).split())
        if done.returncode:
            self.missed.append((done.stdout + done.stderr).strip())

    def take_out(self) -> None:
        """Takes a file out of the folder, or puts a copy in its place. On a disk that is full only
        a name can be put back."""
        name = FILES[0] if self.disk.fill.exists() else self.chance.choice(FILES)
        manner = self.chance.choice(("removed", "renamed", "replaced"))
        manner = "removed" if name == "in" and manner == "replaced" else manner
        self.done[f"{name} {manner}"] += 1
        path, other = self.night / name, self.night / "other"
        # What is put back by a name of its own may be away for a moment.
        with contextlib.suppress(FileNotFoundError):
            other.unlink(missing_ok=True)
            if manner == "removed":
                path.unlink()
            elif manner == "renamed":
                path.rename(other)
            elif not self.disk.fill.exists():
                shutil.copyfile(path, other)
                other.rename(path)

    def act(self) -> None:
        """Kills or stops a process, or two, or takes out a file."""
        if self.chance.randrange(ONE_OF) == 0:
            return self.take_out()
        who, ends = self.chance.choice(WHO), self.chance.random() < 0.6
        names = ("live", "spare") if who == "both" else (who,)
        ends = ends or who == "both"
        self.done[f"{who} {'killed' if ends else 'stopped'}"] += 1
        at = time.time()
        for name in names:
            os.kill(self.number(name), signal.SIGKILL if ends else signal.SIGSTOP)
        if "live" in names:
            # One that stands still is ended by its keeper.
            self.kills.append(Kill(at, time.time() + (0.0 if ends else 2.0)))
        if who == "keeper":
            self.keep_again(ends)

    def keep_again(self, ends: bool) -> None:
        """What a manager of services does about a keeper that is gone, or of which nothing is heard
        any more."""
        time.sleep(STOPPED)
        if not ends:
            os.kill(self.number("keeper"), signal.SIGKILL)
        done = self.run("start", "--background")
        if done.returncode:
            self.wrong.append(f"it is not kept again: {done.stdout}{done.stderr}".strip())

    def play(self, times: int) -> None:
        for _ in range(times):
            if self.is_over:
                return
            if self.chance.random() < 0.15:
                self.disk.turn()
                self.done[DISK_TURNED] += 1
            self.act()
            time.sleep(self.chance.uniform(0.0, 0.5))
            self.press()
            self.become_whole()
            self.become_well()

    def end(self) -> None:
        """Ends it: nothing comes behind that."""
        done = self.run(self.chance.choice(("end", "leave")))
        if done.returncode:
            self.wrong.append(f"the end was not answered: {done.stdout}{done.stderr}".strip())
        time.sleep(BEHIND)
        self.ear.settle()
        heard = len(self.ear.heard)
        time.sleep(BEHIND)
        self.ear.settle()
        if len(self.ear.heard) > heard:
            self.wrong.append(f"{len(self.ear.heard) - heard} packets came behind the end")
        if (done := self.run("status")).returncode != OVER or "has ended" not in done.stdout:
            self.wrong.append(f"not over: {done.stdout}{done.stderr}".strip())

    def gaps(self) -> list[tuple[float, float]]:
        """From one packet to the next, in milliseconds, the longest first; and for how long of that
        the machine stood still."""
        times = [each.at for each in self.ear.heard]
        longest = sorted(zip(times, times[1:]), key=lambda each: each[0] - each[1])[:5]
        stretches = [by_clock(*each) for each in longest]
        return [(each.ms, witness().stall(each.since, each.until)) for each in stretches]

    def judge(self) -> dict[str, Any]:
        """The figures."""
        record = self.night / "record"
        night: Any = SimpleNamespace(
            heard=list(self.ear.heard), kills=self.kills, text=self.show, record=record
        )
        lost = None
        try:
            lost = Judge(night, cid=self.cid, name=NAME).lost_packets()
        except Wrong as wrong:
            self.wrong.append(f"a packet is not what the record means: {wrong}")
        gaps = self.gaps()
        for gap, stalled in gaps:
            if gap > LONGEST + stalled:
                self.wrong.append(f"{gap:.0f} ms without a packet")
        return {
            "done": dict(self.done),
            "packets": len(self.ear.heard),
            "lost": lost,
            "gaps": [[round(gap), round(stalled)] for gap, stalled in gaps],
            "missed": self.missed,
            "restarts": (self.night / "replies").read_text().count("goes on where it"),
        }


def play(times: int, seed: int) -> int:
    """Plays a night over a disk of its own; the status."""
    with tempfile.TemporaryDirectory() as name:
        mount = ["mount", "-t", "tmpfs", "-o", f"size={DISK}", "none", name]
        subprocess.run(mount, check=True)
        night = LongNight(Path(name), random.Random(seed))
        try:
            night.begin()
            night.play(times)
            night.end()
        except (Wrong, OSError, subprocess.TimeoutExpired) as wrong:
            night.wrong.append(f"ended early: {wrong}")
        finally:
            night.run("halt")
            night.ear.close()
        told = {"seed": seed, **night.judge(), "wrong": night.wrong}
        if night.wrong and "CUEPLAYER_KEEP" in os.environ:
            kept = os.environ["CUEPLAYER_KEEP"]
            shutil.copytree(night.night, kept, symlinks=True, ignore=is_fifo)
        print(json.dumps(told))
        subprocess.run(["umount", "-l", name], check=False)
    return 1 if night.wrong else 0


def is_fifo(folder: str, names: list[str]) -> list[str]:
    return [name for name in names if Path(folder, name).is_fifo()]


def main() -> int:
    given = [int(word) for word in sys.argv[1:3]]
    times, seed = [*given, *(TIMES, SEED)[len(given) :]]
    if os.environ.get(INSIDE):
        subprocess.run(["ip", "link", "set", "lo", "up"], check=True)
        return play(times, seed)
    own = ["unshare", "--mount", "--net"]
    own += [] if os.geteuid() == 0 else ["--user", "--map-root-user"]
    tools = all(map(shutil.which, ("unshare", "ip", "mount")))
    if not tools or subprocess.run([*own, "true"], capture_output=True).returncode:
        return SKIPPED
    with tempfile.TemporaryDirectory() as place:
        environment = os.environ | make_language(place) | {INSIDE: "1"}
        words = [*own, sys.executable, __file__, str(times), str(seed)]
        return subprocess.run(words, env=environment).returncode


if __name__ == "__main__":
    sys.exit(main())
