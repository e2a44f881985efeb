"""QLC+, which hands on what its E1.31 input brings to its E1.31 output: so its universes are read,
and so it is a source."""

import socket
import threading
import time
from collections.abc import Sequence
from pathlib import Path

from cueplayer_tools.conform.network import HERE, SECOND
from cueplayer_tools.conform.peers import GROUPS, PeerFault, Sockets
from cueplayer_tools.conform.started import Program, need, version_of, wait_for
from cueplayer_tools.rehearsal import Slots

LANES = 20
READ_AT = ("127.0.0.1", 6000)
# What it sends for its universe n is universe n + 1000.
FURTHER = 1000
# It sends each universe 50 times a second.
SILENT = 2.0
_UNIVERSE = """<Universe Name="{n}" ID="{place}" Passthrough="True">
<Input Plugin="E1.31" UID="{here}" Line="1" Profile="None">
<PluginParameters universe="{n}" multicast="1" mcastIP="{n}"/></Input>
<Output Plugin="E1.31" UID="{here}" Line="1"><PluginParameters multicast="0" ucastIP="{host}"
 ucastPort="{port}" universe="{out}" transmitMode="Full"/></Output>
</Universe>"""
_WORKSPACE = """<?xml version="1.0" encoding="UTF-8"?>
<!DOCTYPE Workspace>
<Workspace xmlns="http://www.qlcplus.org/Workspace" CurrentWindow="FixtureManager">
<Creator><Name>Q Light Controller Plus</Name><Version>4.12.6</Version></Creator>
<Engine><InputOutputMap>{universes}</InputOutputMap></Engine>
</Workspace>
"""


def write_workspace(file: Path, lanes: int) -> None:
    """A workspace that hands on so many universes."""
    host, port = READ_AT
    universes = (
        _UNIVERSE.format(n=n, place=n - 1, here=HERE, host=host, port=port, out=n + FURTHER)
        for n in range(1, lanes + 1)
    )
    file.write_text(_WORKSPACE.format(universes="\n".join(universes)))


class QlcPlus:
    """The program, which draws on no screen."""

    def __init__(self, lanes: int) -> None:
        need("qlcplus", package="qlcplus")
        self.version = version_of("qlcplus", "--version")
        self.program = Program("qlcplus")
        workspace = self.program.folder / "conform.qxw"
        write_workspace(workspace, lanes)
        words = ["qlcplus", "--open", str(workspace), "--operate", "--nowm", "--nogui"]
        self.program.start(*words, QT_QPA_PLATFORM="offscreen")

    def close(self) -> None:
        self.program.close()


class QlcPlusPeer:
    """Its universes, as it hands them on."""

    name = "QLC+"
    keeps_time, moves, look_time = True, True, 0.0

    def __init__(self, lanes: int = LANES) -> None:
        self.universes: Sequence[int] = range(1, lanes + 1)
        self.pair: Sequence[int] = self.universes[:2]
        self.shown: dict[int, tuple[float, bytes]] = {}
        self.reader = socket.socket(socket.AF_INET, socket.SOCK_DGRAM)
        self.reader.setsockopt(socket.SOL_SOCKET, socket.SO_RCVBUF, 1 << 22)
        self.reader.bind(READ_AT)
        self.reader.settimeout(0.1)
        self.is_over = False
        self.thread = threading.Thread(target=self._read, daemon=True)
        self.thread.start()
        self.qlcplus = QlcPlus(lanes)
        self.version = self.qlcplus.version
        self.sockets = Sockets(GROUPS, source=HERE, second=SECOND)
        self.route = self.sockets.route
        wait_for(lambda: len(self.shown) == lanes, "qlcplus does not start")

    def _read(self) -> None:
        while not self.is_over:
            try:
                data = self.reader.recv(2048)
            except TimeoutError:
                continue
            universe = int.from_bytes(data[113:115], "big") - FURTHER
            self.shown[universe] = time.monotonic(), data[126:]

    def begin(self, universes: Sequence[int]) -> None:
        pass

    def send(self, universe: int, data: bytes, sender: int) -> None:
        self.sockets.send(universe, data, sender)

    def look(self, universe: int) -> Slots:
        self.qlcplus.program.check()
        at, slots = self.shown[universe]
        if time.monotonic() - at > SILENT:
            raise PeerFault(f"qlcplus sends nothing for {SILENT:g} s")
        return {slot: level for slot, level in enumerate(slots, 1) if level}

    def close(self) -> None:
        self.is_over = True
        self.thread.join()
        self.reader.close()
        self.sockets.close()
        self.qlcplus.close()
