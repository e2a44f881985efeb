"""Sources that a trial starts and plays: levels that move, stand still, move again and end."""

import socket
import subprocess
import tempfile
from collections.abc import Callable
from pathlib import Path
from typing import Protocol

from cueplayer_tools.conform.capture import open_listener
from cueplayer_tools.conform.network import HERE
from cueplayer_tools.conform.open_lighting import Daemon
from cueplayer_tools.conform.packets import DataPacket, full_slots
from cueplayer_tools.conform.peers import GROUPS, PATIENCE, PORT, Sockets
from cueplayer_tools.conform.qlcplus import READ_AT, QlcPlus
from cueplayer_tools.program import program, run

# It ends so many seconds before the listening does, and a move lasts so long, each so often.
BEFORE_THE_END = 3.5
MOVE, EACH = 1.0, 4.0
# A move has so many levels in a second.
STEPS = 30
SHOW = "CUE 1\nCHAN 1@FL\nSUB 1\nCHAN 1@FL 2@FL\nPATCH 1 1<1@FL 2<2@FL\n"
OWN_CID = "c0ffee00-0000-4000-8000-00000000e131"


class PlayedSource(Protocol):
    """A source that listens to this trial alone."""

    name: str
    version: str
    listener: socket.socket

    def level(self, level: int) -> None:
        """Slot 1 of universe 1 goes to this level."""

    def end(self) -> None:
        """Its stream ends."""

    def close(self) -> None:
        """Ends what was begun for it."""


def player(source: PlayedSource, seconds: float) -> Callable[[float], None]:
    """Plays a source by the time that has gone by: it moves for a second, each four seconds."""
    steps, is_over = 0, False

    def play(gone: float) -> None:
        nonlocal steps, is_over
        step = int(gone * STEPS)
        if is_over or step <= steps:
            return
        steps = step
        if gone > seconds - BEFORE_THE_END:
            is_over = True
            source.end()
        elif gone % EACH < MOVE:
            source.level(step % 250 + 1)

    return play


class OwnSource:
    """`cueplayer live`."""

    def __init__(self) -> None:
        self.name = "cueplayer live"
        version = run("--version").printed.splitlines()
        self.version = version[0].removeprefix("cueplayer ") if version else "unknown"
        self.listener = open_listener("127.0.0.1", 0, (), "")
        self.folder = tempfile.TemporaryDirectory(prefix="conform-")
        show = Path(self.folder.name, "show.asc")
        show.write_text(SHOW)
        to = "{}:{}".format(*self.listener.getsockname())
        words = [program(), "live", str(show), "--to", to, "--cid", OWN_CID]
        pipe, none = subprocess.PIPE, subprocess.DEVNULL
        self.process = subprocess.Popen(words, stdin=pipe, stdout=none, stderr=none, text=True)

    def _type(self, line: str) -> None:
        assert self.process.stdin is not None
        self.process.stdin.write(line + "\n")
        self.process.stdin.flush()

    def level(self, level: int) -> None:
        self._type(f"sub 1 H{level:02x}")

    def end(self) -> None:
        self._type("end")

    def close(self) -> None:
        self.listener.close()
        if self.process.poll() is None:
            self.process.terminate()
        self.process.communicate(timeout=PATIENCE)
        self.folder.cleanup()


class OpenLightingSource:
    """The daemon of OLA, told by its page `set_dmx`."""

    name = "OLA"

    def __init__(self) -> None:
        self.listener = open_listener("0.0.0.0", PORT, (1,), HERE)
        self.daemon = Daemon(1, 1)
        self.version = self.daemon.version
        self.daemon.patch(0, 1)

    def level(self, level: int) -> None:
        self.daemon.ask("set_dmx", u="1", d=str(level))

    def end(self) -> None:
        self.daemon.patch(0, 1, "-r")

    def close(self) -> None:
        self.listener.close()
        self.daemon.close()


class QlcPlusSource:
    """QLC+, told by its E1.31 input. Its window is not there to be closed, so no stream ends."""

    name = "QLC+"

    def __init__(self) -> None:
        self.listener = open_listener(*READ_AT, (), "")
        self.qlcplus = QlcPlus(1)
        self.version = self.qlcplus.version
        self.sockets = Sockets(GROUPS, source=HERE)
        self.number = 0

    def level(self, level: int) -> None:
        self.number += 1
        packet = DataPacket(bytes(15) + b"\1", 1, self.number, full_slots({1: level}))
        self.sockets.send(1, packet.to_bytes(), 0)

    def end(self) -> None:
        pass

    def close(self) -> None:
        self.listener.close()
        self.sockets.close()
        self.qlcplus.close()


