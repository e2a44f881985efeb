"""A live night of sixteen universes, and how much the machine itself held it up."""

from __future__ import annotations

import multiprocessing
import os
import random
import select
import socket
import statistics
import subprocess
import time
from multiprocessing.queues import Queue
from multiprocessing.synchronize import Event
from pathlib import Path

from inputs import CID, night_show

TICKS_OF_A_NIGHT = 10_000
COMMANDS_OF_A_NIGHT = 1_000
# A sleeper that wakes so many seconds late was held up.
LATE = 0.002
# When a sleeper should have woken, and when it did.
Pause = tuple[float, float]


def shows(datagram: bytes, level: int) -> bool:
    """Whether a datagram is of universe 1 and has this level in its last slot."""
    return datagram[113:115] == b"\x00\x01" and datagram[637] == level


def latencies(night: subprocess.Popen[bytes], receiver: socket.socket) -> list[tuple[float, float]]:
    """When each command was written, and when the first datagram came that shows it."""
    rng = random.Random(23)
    assert night.stdin is not None
    shown = []
    for number in range(COMMANDS_OF_A_NIGHT):
        if number % 200 == 0:
            night.stdin.write(f"goto {number // 200 % 2 + 1}\n".encode())
        apart = 0.025 * TICKS_OF_A_NIGHT / COMMANDS_OF_A_NIGHT
        pause = time.perf_counter() + apart * rng.uniform(0.9, 1.1)
        while (left := pause - time.perf_counter()) > 0:
            if select.select([receiver], [], [], left)[0]:
                receiver.recv(1500)
        level = 255 * (1 - number % 2)
        start = time.perf_counter()
        night.stdin.write(b"sub 1 FL\n" if level else b"sub 1 0\n")
        while not shows(receiver.recv(1500), level):
            pass
        shown.append((start, time.perf_counter()))
    return shown


def sleep_only(processor: int, found: Queue[list[Pause]], is_over: Event) -> None:
    """On one processor, sleeps two milliseconds at a time and does nothing else. Answers when it
    should have woken and when it did, of each time that it woke late."""
    os.sched_setaffinity(0, {processor})
    pauses: list[Pause] = []
    while not is_over.is_set():
        due = time.perf_counter() + 0.002
        time.sleep(0.002)
        if (woke := time.perf_counter()) - due > LATE:
            pauses.append((due, woke))
    found.put(pauses)


class Pauses:
    """The pauses of the machine itself, at the priority of this run: on each processor a process
    that only sleeps, and wakes late."""

    def __init__(self) -> None:
        self.found: Queue[list[Pause]] = multiprocessing.Queue()
        self.is_over = multiprocessing.Event()
        self.processors = sorted(os.sched_getaffinity(0))
        for processor in self.processors:
            asked = (processor, self.found, self.is_over)
            multiprocessing.Process(target=sleep_only, args=asked, daemon=True).start()

    def all(self) -> list[Pause]:
        """Every pause from the start until now, and no more."""
        self.is_over.set()
        return [pause for _ in self.processors for pause in self.found.get()]


def play_night(program: Path, folder: Path) -> tuple[list[tuple[float, float]], list[int], str]:
    """Plays a live night: what `latencies` answers, how far its ticks were apart in milliseconds,
    and how it ended."""
    show, record = folder / "night.asc", folder / "night.play"
    show.write_text(night_show(), encoding="ascii")
    with socket.socket(type=socket.SOCK_DGRAM) as receiver:
        receiver.setsockopt(socket.SOL_SOCKET, socket.SO_RCVBUF, 1 << 22)
        receiver.bind(("127.0.0.1", 0))
        receiver.settimeout(10)
        to = f"127.0.0.1:{receiver.getsockname()[1]}"
        words = ["live", str(show), "--to", to, "--cid", CID, "--record", str(record)]
        start = time.perf_counter()
        night = subprocess.Popen(
            [program, *words, "--end-with-input"],
            stdin=subprocess.PIPE,
            stdout=subprocess.DEVNULL,
            bufsize=0,
        )
        shown = latencies(night, receiver)
        assert night.stdin is not None
        night.stdin.close()
        _, status, used = os.wait4(night.pid, 0)
        elapsed = time.perf_counter() - start
    lines = (line.split() for line in record.read_text(encoding="ascii").splitlines())
    ticks = [int(moment) for moment, *words in lines if words == ["tick"]]
    share = 100 * (used.ru_utime + used.ru_stime) / elapsed
    ended = f"status {os.waitstatus_to_exitcode(status)}, {elapsed:.0f} s, processor {share:.1f} %"
    return shown, sorted(after - before for before, after in zip(ticks, ticks[1:])), ended


def summary(seconds: list[float]) -> str:
    """The median and the worst, in milliseconds."""
    median, worst = 1e3 * statistics.median(seconds), 1e3 * max(seconds)
    return f"{median:.1f} ms, worst of {len(seconds)}: {worst:.1f} ms"


def report_night(program: Path, folder: Path) -> None:
    """Plays a live night, and prints its figures."""
    machine = Pauses()
    shown, gaps, ended = play_night(program, folder)
    pauses = machine.all()
    alone = [
        came - start
        for start, came in shown
        if not any(due < came and start < woke for due, woke in pauses)
    ]
    longest = max((woke - due for due, woke in pauses), default=0.0)
    seldom = gaps[len(gaps) * 999 // 1000]
    print(ended)
    print(f"command to datagram   {summary([came - start for start, came in shown])}")
    print(f"  no pause of the machine meanwhile: {summary(alone)}")
    print(
        f"ticks apart           {statistics.median(gaps)} ms, 99.9th of {len(gaps)}: {seldom} ms,"
        f" {gaps[0]} to {gaps[-1]} ms"
    )
    print(
        f"pauses of the machine {len(pauses)} of more than {1e3 * LATE:.0f} ms, the longest"
        f" {1e3 * longest:.1f} ms"
    )
