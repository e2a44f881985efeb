"""The levels that reach this machine: a receiver beside the light, never in its path.

Multicast is heard by everyone who asks for it, so each universe's own group is asked for, at the
address of the group alone: what is sent to this machine itself is left to whoever waits for it. At
one receiver's own address only one may listen, so that is done only where the operator says so.

What comes is handed to `cueplayer watch`, which reads it: what it makes of it is what is shown.
"""

import os
import selectors
import socket
import subprocess
import threading
import time
import uuid
from collections.abc import Callable, Sequence
from dataclasses import dataclass

from cueplayer_tools.addresses import Address, bound_socket
from cueplayer_tools.desk.watch import USUAL_PRIORITY, Levels, Watched
from cueplayer_tools.program import program
from cueplayer_tools.targets import Target, group_of, membership, targets_of

# `watch` takes so many; a line of it so many bytes of a datagram.
MOST_UNIVERSES = 16
LONGEST_DATAGRAM = 1_400
# Between two lines of the clock, in seconds, and datagrams that are looked at in that time.
TICK = 0.1
MOST_IN_A_TICK = 500
ENDED = "the levels cannot be read: watch has ended"


def _join(universe: int, port: int, card: str | None) -> socket.socket:
    group = group_of(universe)
    receiver = socket.socket(socket.AF_INET, socket.SOCK_DGRAM)
    try:
        receiver.setsockopt(socket.SOL_SOCKET, socket.SO_REUSEADDR, 1)
        receiver.bind((group, port))
        joined = membership(group, card)
        receiver.setsockopt(socket.IPPROTO_IP, socket.IP_ADD_MEMBERSHIP, joined)
    except OSError:
        receiver.close()
        raise
    return receiver


@dataclass(frozen=True)
class Way:
    """Where a night sends, and by which card; and whether levels are received at addresses of this
    machine's own too."""

    targets: Sequence[Target]
    card: str | None = None
    is_here: bool = False
    priority: int = USUAL_PRIORITY


class LevelReader:
    """Reads the levels of a night's universes, where they come to this machine."""

    def __init__(self, way: Way, cid: uuid.UUID, universes: list[int]) -> None:
        self.watched = Watched(cid, way.priority)
        self.selector = selectors.DefaultSelector()
        # The addresses of this machine's own that are listened at.
        self.here: set[Address] = set()
        self.universes: list[int] = []
        for universe in universes:
            targets = targets_of(universe, way.targets)
            reasons = [self._listen(universe, target, way) for target in targets]
            if reasons and all(reasons):
                self.levels.reasons[universe] = reasons[0]
            elif len(self.universes) < MOST_UNIVERSES:
                self.universes.append(universe)
            else:
                self.levels.reasons[universe] = f"only {MOST_UNIVERSES} universes are shown"

    @property
    def levels(self) -> Levels:
        """What is shown."""
        return self.watched.levels

    def _listen(self, universe: int, target: Target, way: Way) -> str:
        """Listens where a target's packets may come to this machine; why they do not, else
        nothing."""
        if not target.is_groups() and not way.is_here:
            return "they are sent to one receiver alone"
        if target.address in self.here:
            return ""
        try:
            if target.is_groups():
                receiver = _join(universe, target.address[1], way.card)
            else:
                receiver = bound_socket(target.address)
                self.here.add(target.address)
        except OSError as fault:
            return fault.strerror or str(fault)
        receiver.setblocking(False)
        self.selector.register(receiver, selectors.EVENT_READ)
        return ""

    def read(self, changed: Callable[[], None]) -> None:
        """Reads from here on, and tells of each change."""
        if self.selector.get_map():
            threading.Thread(target=self._read, args=(changed,), daemon=True).start()

    def _read(self, changed: Callable[[], None]) -> None:
        """Runs `watch`, and feeds it as long as it runs."""
        try:
            process = subprocess.Popen(
                [program(), "watch", *map(str, self.universes)],
                stdin=subprocess.PIPE,
                stdout=subprocess.PIPE,
                stderr=subprocess.DEVNULL,
                start_new_session=True,
            )
        except OSError:
            self._fail(changed)
            return
        threading.Thread(target=self._hear, args=(process, changed), daemon=True).start()
        assert process.stdin is not None
        with process.stdin as lines:
            os.set_blocking(lines.fileno(), False)
            self._feed(lines.fileno(), changed)

    def _hear(self, process: subprocess.Popen[bytes], changed: Callable[[], None]) -> None:
        assert process.stdout is not None
        for line in process.stdout:
            if self.watched.hear(line.decode("latin-1").rstrip("\n")):
                changed()
        process.wait()
        self._fail(changed)

    def _fail(self, changed: Callable[[], None]) -> None:
        self.watched.fail(ENDED, self.universes)
        changed()

    def _feed(self, lines: int, changed: Callable[[], None]) -> None:
        """Hands on what comes, and the clock. A flood is looked at in parts."""
        began, tick, count = time.monotonic(), 0, 0
        while True:
            now = time.monotonic() - began
            if now >= tick * TICK:
                tick, count = int(now / TICK) + 1, 0
                self._give(lines, round(now * 1000), b"")
                if self.watched.look(round(now * 1000)):
                    changed()
            rest = max(tick * TICK - now, 0.0)
            if count >= MOST_IN_A_TICK:
                time.sleep(rest)
                continue
            for key, _ in self.selector.select(rest):
                count += 1
                assert isinstance(key.fileobj, socket.socket)
                self._take(lines, key.fileobj, round((time.monotonic() - began) * 1000))

    def _take(self, lines: int, receiver: socket.socket, moment: int) -> None:
        try:
            self._give(lines, moment, receiver.recv(LONGEST_DATAGRAM))
        except BlockingIOError:
            pass

    def _give(self, lines: int, moment: int, datagram: bytes) -> None:
        """Hands a line on. What `watch` has no room for is not shown: the next packet shows it."""
        try:
            os.write(lines, f"{moment} {datagram.hex()}\n".encode())
        except OSError:
            pass
