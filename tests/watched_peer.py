#!/usr/bin/env python3
"""Has `tools/watch` see what another maker's program sends: its source, and a level that moves.

usage: unshare --net tests/watched_peer.py ola|qlcplus

It wants a network of its own. It prints the lines of the source and of the slots.
"""

import queue
import re
import subprocess
import sys
import time
from contextlib import ExitStack
from pathlib import Path

TESTS = Path(__file__).resolve().parent
sys.dont_write_bytecode = True
sys.path[:0] = [str(TESTS / "harness"), str(TESTS.parent / "tools")]

from cueplayer_tools.conform.network import HERE, LINK  # noqa: E402  (both are on the path now)
from cueplayer_tools.conform.open_lighting import Daemon  # noqa: E402
from cueplayer_tools.conform.packets import DataPacket, full_slots  # noqa: E402
from cueplayer_tools.conform.peers import GROUPS, Sockets  # noqa: E402
from cueplayer_tools.conform.qlcplus import FURTHER, READ_AT, QlcPlus  # noqa: E402
from tooling import PATIENCE, TOOLS, Lines  # noqa: E402

LEVEL = 200


def make_link():
    """Only where there is nothing but a loopback, as in a network that was just made."""
    shown = subprocess.run(["ip", "-o", "link"], capture_output=True, text=True, check=True)
    if len(shown.stdout.splitlines()) != 1:
        sys.exit("this is no network of its own: unshare --net makes one")
    for words in LINK:
        subprocess.run(["ip", *words.split()], check=True)


def watch(kept, *words):
    """The lines of the tool."""
    words = [sys.executable, TOOLS / "watch", "--lines", *words]
    child = subprocess.Popen(words, stdout=subprocess.PIPE, text=True)
    kept.callback(child.wait, PATIENCE)
    # A tool that is killed leaves a program behind that tells that its reader is gone.
    kept.callback(child.terminate)
    return Lines(child.stdout)


def play(level, lines, universe):
    """Has the level sent until the tool shows it; its source and its slots, as they were told."""
    source, until = None, time.monotonic() + 2 * PATIENCE
    while time.monotonic() < until:
        level()
        try:
            line = lines.next(0.2) or ""
        except queue.Empty:
            continue
        if re.match(rf"\d+ {universe} source ", line):
            source = line
        if re.match(rf"\d+ {universe} slots 1:{LEVEL}$", line) and source:
            return source, line
    raise AssertionError(f"no level of universe {universe} is shown; source: {source}")


def of_open_lighting(kept):
    lines = watch(kept, "1", "--interface", "stage")
    daemon = Daemon(1, 1)
    kept.callback(daemon.close)
    daemon.patch(0, 1)
    return play(lambda: daemon.ask("set_dmx", u="1", d=str(LEVEL)), lines, 1)


def of_qlcplus(kept):
    universe = 1 + FURTHER
    lines = watch(kept, str(universe), "--port", str(READ_AT[1]), "--interface", "lo")
    peer = QlcPlus(1)
    kept.callback(peer.close)
    sockets = Sockets(GROUPS, source=HERE)
    kept.callback(sockets.close)
    numbers = iter(range(1 << 30))

    def level():
        packet = DataPacket(bytes(15) + b"\1", 1, next(numbers) % 256, full_slots({1: LEVEL}))
        sockets.send(1, packet.to_bytes(), 0)

    return play(level, lines, universe)


if __name__ == "__main__":
    make_link()
    with ExitStack() as kept:
        print("\n".join({"ola": of_open_lighting, "qlcplus": of_qlcplus}[sys.argv[1]](kept)))
