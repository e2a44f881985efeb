#!/usr/bin/env python3
"""Bad nights by chance: changed shows, lines, scripts and datagrams, each answer held against the
pages.

usage: tests/hostile.py [--cases N] [--seed S]

What the program must answer is worked out in `expected`, from docs/PROFILE.md and docs/FORMATS.md
alone. A case is a changed show, input of `play`, script or datagram; it is the same for the same
seed. Of the first that is answered otherwise the smallest that was found is printed, and the exit
status is 1.
"""

import argparse
import os
import random
import select
import signal
import socket
import sys
import tempfile
import time
from dataclasses import dataclass, replace
from pathlib import Path

TESTS = Path(__file__).resolve().parent
sys.dont_write_bytecode = True
sys.path.insert(0, str(TESTS / "harness"))

import changes  # noqa: E402  (the harness is on the path now)
import inputs  # noqa: E402
from expected import runs, show as shows  # noqa: E402
from expected.words import cue_number  # noqa: E402
from program import CID, PROGRAM, messages_in as without_remark  # noqa: E402
from wire import free_port  # noqa: E402

HUNG = -999
DATAGRAMS = 60  # of one run of `listen`
# How often each comes: of `check`, `cues`, `look` and `slots` the show is changed, of others what
# is played too.
JOBS = (
    ["check"] * 3 + ["cues"] * 2 + ["look"] * 2 + ["slots"] * 2 + ["play"] * 6 + ["rehearse"] * 3
)
JOBS += ["listen"] * 5


@dataclass(frozen=True)
class Case:
    """A run: its job, the bytes that it is given, and the words that vary. `parts` has the show
    and the input or the script, or the datagrams of `listen`."""

    job: str
    parts: tuple
    cue: str = "1"
    base: int = 1
    priority: int = 100

    def weight(self):
        return len(self.parts) if self.job == "listen" else 1

    def expected_answer(self):
        if self.job == "check":
            return runs.check(*self.parts)
        if self.job == "cues":
            return runs.cues(*self.parts)
        if self.job == "look":
            return runs.look(*self.parts, cue_number(self.cue.encode()))
        if self.job == "slots":
            return runs.slots(*self.parts, cue_number(self.cue.encode()), self.base)
        if self.job == "play":
            return runs.play(*self.parts, self.base, self.priority)
        if self.job == "rehearse":
            return runs.rehearse(*self.parts)
        return runs.listen(1, self.parts)


class Runner:
    """Runs cases. Files in memory stand for the streams, and one socket takes what `play`
    sends."""

    def __init__(self):
        self.streams = [os.memfd_create(name) for name in ("in", "out", "err")]
        self.actions = [(os.POSIX_SPAWN_DUP2, stream, n) for n, stream in enumerate(self.streams)]
        self.folder = tempfile.TemporaryDirectory()
        self.show, self.script = (Path(self.folder.name, name) for name in ("show", "script"))
        self.receiver = socket.socket(socket.AF_INET, socket.SOCK_DGRAM)
        self.receiver.setsockopt(socket.SOL_SOCKET, socket.SO_RCVBUF, 1 << 22)
        self.receiver.bind(("127.0.0.1", 0))
        self.receiver.setblocking(False)
        self.sender = socket.socket(socket.AF_INET, socket.SOCK_DGRAM)
        self.listening = ("127.0.0.1", free_port())

    def close(self):
        for stream in self.streams:
            os.close(stream)
        self.receiver.close()
        self.sender.close()
        self.folder.cleanup()

    def answer(self, case):
        if case.job in ("check", "cues"):
            return self.run([case.job, "-"], case.parts[0])
        if case.job == "look":
            return self.run(["look", "-", case.cue, "--cid", CID], case.parts[0])
        if case.job == "slots":
            return self.run(["slots", "-", case.cue, "--base", case.base], case.parts[0])
        if case.job == "listen":
            return self.run_listen(case.parts)
        self.show.write_bytes(case.parts[0])
        if case.job == "rehearse":
            self.script.write_bytes(case.parts[1])
            return self.run(["rehearse", self.show, self.script], b"")
        to = "127.0.0.1:{}".format(self.receiver.getsockname()[1])
        words = ["play", self.show, "--to", to, "--cid", CID]
        words += ["--base", str(case.base), "--priority", str(case.priority)]
        return self.run(words, case.parts[1])

    def run(self, words, stdin):
        return self.end_of(self.start(words, stdin))

    def start(self, words, stdin=b""):
        for stream in self.streams:
            os.ftruncate(stream, 0)
            os.lseek(stream, 0, os.SEEK_SET)
        os.pwrite(self.streams[0], stdin, 0)
        words = [str(word) for word in (PROGRAM, *words)]
        return os.posix_spawn(words[0], words, os.environ, file_actions=self.actions)

    def end_of(self, child):
        """How a run ended; one that does not end within a minute is ended."""
        process = os.pidfd_open(child)
        hung = not select.select([process], [], [], 60)[0]
        if hung:
            os.kill(child, signal.SIGKILL)
        os.close(process)
        status = os.waitstatus_to_exitcode(os.waitpid(child, 0)[1])
        out, err = (os.pread(stream, os.fstat(stream).st_size, 0) for stream in self.streams[1:])
        return runs.Answer(
            HUNG if hung else status, out, without_remark(err), tuple(self.datagrams())
        )

    def datagrams(self):
        try:
            while True:
                yield self.receiver.recv(65536)
        except BlockingIOError:
            return

    def run_listen(self, datagrams):
        """A run of `listen` that is sent these datagrams once it has its socket."""
        at = "{}:{}".format(*self.listening)
        child = self.start(["listen", at, "1", str(len(datagrams))])
        bound = " 0100007F:{:04X} ".format(self.listening[1])
        until = time.monotonic() + 30
        while bound not in Path("/proc/net/udp").read_text() and time.monotonic() < until:
            time.sleep(0.001)
        for datagram in datagrams:
            self.sender.sendto(datagram, self.listening)
        return self.end_of(child)


def make_case(r, job):
    """A case by chance."""
    if job == "listen":
        datagrams = inputs.datagrams(r, DATAGRAMS)
        return Case(
            job, tuple(changes.with_changes(r, each, changes.OF_BYTES, 1) for each in datagrams)
        )
    base = r.choice([1] * 16 + [2, 63984, 63985, 63998, 63999])
    if job in ("check", "cues", "look", "slots"):
        show = changes.with_changes(r, inputs.show(r, odd=0.004), changes.OF_TEXTS, 3)
        cues = [f"{n // 1000}.{n % 1000:03}" for n in getattr(shows.read(show), "cues", ())]
        cue = r.choice(cues) if cues and r.random() < 0.9 else r.choice(inputs.CUES)
        return Case(job, (show,), cue, base)
    # Of what is played most is good, so that the runs come far.
    show = inputs.show(r, odd=0.0002)
    show = changes.with_changes(r, show, changes.OF_TEXTS, r.choice([0, 0, 1]))
    if job == "rehearse":
        script = changes.with_changes(r, inputs.script(r), changes.OF_TEXTS, r.choice([0, 0, 1, 2]))
        return Case(job, (show, script))
    lines = changes.with_changes(r, inputs.play_lines(r), changes.OF_TEXTS, r.choice([0, 1, 2]))
    return Case(job, (show, lines), base=base, priority=r.choice([100, 100, 0, 200]))


def cases(count, seed):
    """So many cases at least. Each datagram of `listen` is one, so that a run of it comes the more
    seldom."""
    r = random.Random(seed)
    while count > 0:
        job = r.choice(JOBS)
        if job == "listen" and r.randrange(DATAGRAMS):
            continue
        case = make_case(r, job)
        count -= case.weight()
        yield case


def smaller(case):
    """Cases with less in them: without a part of the lines or bytes of one text, or of the
    datagrams."""
    if case.job == "listen":
        for kept in parts_left_out(case.parts):
            yield replace(case, parts=kept)
        return
    for n, part in enumerate(case.parts):
        for split, join in ((part.splitlines(keepends=True), b"".join), (part, bytes)):
            for kept in parts_left_out(split):
                yield replace(case, parts=(*case.parts[:n], join(kept), *case.parts[n + 1 :]))


def parts_left_out(whole):
    """A list without a half, a quarter, and so on down to one of its members."""
    length = len(whole) // 2
    while length:
        for first in range(0, len(whole), length):
            yield whole[:first] + whole[first + length :]
        length //= 2


def smallest(case, fails, seconds):
    """The smallest case that fails, as far as it is found in so many seconds."""
    until = time.monotonic() + seconds
    found = True
    while found and time.monotonic() < until:
        found = False
        for less in smaller(case):
            if time.monotonic() > until:
                break
            if fails(less):
                case, found = less, True
                break
    return case


def case_text(case, expected, answer):
    """A failing case, in words."""
    lines = [f"{case.job}, cue {case.cue}, base {case.base}, priority {case.priority}"]
    lines += [f"  given    {part!r}" for part in case.parts]
    for name, one in (("expected", expected), ("answered", answer)):
        lines.append(f"  {name} status {one.status}, out {one.out!r}, err {one.err!r}")
    if expected.packets != answer.packets:
        lines.append(f"  packets  {len(expected.packets)} expected, {len(answer.packets)} sent")
        pairs = enumerate(zip(expected.packets, answer.packets))
        lines += [f"  packet {n} {differences(*pair)}" for n, pair in pairs if pair[0] != pair[1]]
    return "\n".join(lines)


def differences(expected, answered):
    """The offsets at which two packets differ, and the bytes there."""
    if len(expected) != len(answered):
        return f"of {len(expected)} bytes expected, of {len(answered)} sent"
    pairs = enumerate(zip(expected, answered))
    return ", ".join(f"offset {n}: {a} expected, {b} sent" for n, (a, b) in pairs if a != b)


def first_failure(count, seed, seconds=20):
    """The first case that the program answers otherwise, in words and as small as it gets in so
    many seconds, or None; and how many cases and runs there were."""
    runner = Runner()
    done = ran = 0
    try:
        for case in cases(count, seed):
            expected = case.expected_answer()
            if runner.answer(case) != expected:
                case = smallest(
                    case, lambda less: runner.answer(less) != less.expected_answer(), seconds
                )
                return case_text(case, case.expected_answer(), runner.answer(case)), done, ran
            done += case.weight()
            ran += 1
        return None, done, ran
    finally:
        runner.close()


def main():
    words = argparse.ArgumentParser(description="bad nights by chance")
    words.add_argument("--cases", type=int, default=20_000)
    words.add_argument("--seed", type=int, default=1)
    given = words.parse_args()
    began = os.times()
    failure, done, ran = first_failure(given.cases, given.seed)
    seconds = sum(os.times()[:4]) - sum(began[:4])
    print(f"seed {given.seed}: {done} cases in {ran} runs, {seconds:.0f} s of processor time")
    if failure:
        print(failure)
    return 1 if failure else 0


if __name__ == "__main__":
    sys.exit(main())
