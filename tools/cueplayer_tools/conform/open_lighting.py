"""The daemon of Open Lighting (OLA), with ports of E1.31, as a receiver and as a source."""

import json
import os
import re
import urllib.parse
import urllib.request
from collections.abc import Sequence
from pathlib import Path

from cueplayer_tools.conform.network import HERE, SECOND
from cueplayer_tools.conform.peers import GROUPS, PATIENCE, PeerFault, Sockets
from cueplayer_tools.conform.started import Program, need, told_by, version_of, wait_for
from cueplayer_tools.rehearsal import Slots

# It begins with these too, and some of them look for devices.
OTHERS = (
    "artnet dummy espnet ftdidmx gpio karate kinet milinst nanoleaf opendmx openpixelcontrol osc"
    " pathport renard sandnet shownet spi stageprofi uartdmx usbdmx usbserial"
).split()
# It does not run as root.
NOBODY = 65534
PAGES = 9090
LANES = 40


def _as_nobody(folder: Path) -> list[str]:
    """The words that run a program as another user than root, to whom a folder is given. A user
    namespace that knows no other has one inside in which its root is nobody."""
    try:
        for each in (folder, *folder.iterdir()):
            os.chown(each, NOBODY, NOBODY)
    except OSError:
        return ["unshare", "--user"]
    return ["setpriv", f"--reuid={NOBODY}", f"--regid={NOBODY}", "--clear-groups"]


class Daemon:
    """The daemon, with so many ports that receive, and so many that send."""

    def __init__(self, receiving: int, sending: int) -> None:
        need("olad", "ola_dev_info", "ola_patch", package="ola")
        need("setpriv", "unshare", package="util-linux")
        self.version = version_of("olad", "--version")
        self.program = Program("olad")
        folder = self.program.folder
        for name in OTHERS:
            (folder / f"ola-{name}.conf").write_text("enabled = false\n")
        ports = f"input_ports = {receiving}\noutput_ports = {sending}\n"
        (folder / "ola-e131.conf").write_text(f"enabled = true\nip = {HERE}\n{ports}")
        words = ["olad", "--config-dir", str(folder), "--http-port", str(PAGES)]
        self.program.start(*_as_nobody(folder), *words, "--no-register-with-dns-sd")
        self.device = str(wait_for(self._device, "olad does not start"))

    def _device(self) -> str | None:
        self.program.check()
        found = re.search(r"(?m)^Device (\d+): E1\.31", told_by("ola_dev_info"))
        return found[1] if found else None

    def patch(self, port: int, universe: int, *more: str) -> None:
        """Ties a port to a universe; `-i` is a port that receives, `-r` unties it."""
        told_by("ola_patch", "-d", self.device, "-p", str(port), "-u", str(universe), *more)

    def ask(self, page: str, **given: str) -> bytes:
        """What a page of it answers."""
        data = urllib.parse.urlencode(given).encode() if given else None
        address = f"http://127.0.0.1:{PAGES}/{page}"
        try:
            with urllib.request.urlopen(address, data, timeout=PATIENCE) as answer:
                return bytes(answer.read())
        except OSError as fault:
            self.program.check()
            raise PeerFault(f"olad gives no answer within {PATIENCE} s") from fault

    def close(self) -> None:
        self.program.close()


class OpenLightingPeer:
    """Its universes, as its page `get_dmx` shows them."""

    name = "OLA"
    keeps_time, moves, look_time = True, True, 0.0

    def __init__(self, lanes: int = LANES) -> None:
        self.daemon = Daemon(lanes, 0)
        self.version = self.daemon.version
        self.universes: Sequence[int] = range(1, lanes + 1)
        self.pair: Sequence[int] = self.universes[:2]
        for port, universe in enumerate(self.universes):
            self.daemon.patch(port, universe, "-i")
        self.sockets = Sockets(GROUPS, source=HERE, second=SECOND)
        self.route = self.sockets.route

    def begin(self, universes: Sequence[int]) -> None:
        pass

    def send(self, universe: int, data: bytes, sender: int) -> None:
        self.sockets.send(universe, data, sender)

    def look(self, universe: int) -> Slots:
        shown = json.loads(self.daemon.ask(f"get_dmx?u={universe}"))["dmx"]
        return {slot: level for slot, level in enumerate(shown, 1) if level}

    def close(self) -> None:
        self.sockets.close()
        self.daemon.close()
