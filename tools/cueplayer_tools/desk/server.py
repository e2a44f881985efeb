"""The page of a desk over HTTP: for this machine by a word in its address, and for others by a PIN.

A press has a second. The page says when it was made by the desk's clock, which it knows from the
events; the desk takes none that is older than `PRESS_DEADLINE`, and so its answer is back within
the second after which the page gives up. It says too which state it showed then.
"""

import json
import re
import socket
import threading
import time
from collections.abc import Callable
from http import HTTPStatus
from pathlib import Path
from typing import Any

from cueplayer_tools.desk.answers import PLAIN, answer, refuse
from cueplayer_tools.desk.doors import Door, PinDoor, Stopped, Visit, WordDoor
from cueplayer_tools.desk.heard import HeardNight
from cueplayer_tools.desk.levels import LevelReader
from cueplayer_tools.desk.looks import BlindLooks
from cueplayer_tools.desk.pages import Pages
from cueplayer_tools.desk.pins import Role
from cueplayer_tools.desk.press import Press
from cueplayer_tools.desk.requests import MOST_CONNECTIONS, MOST_OF_ONE, Entrance, Request
from cueplayer_tools.line_protocol import Refused, printable

PAGE = Path(__file__).resolve().parent / "page"
HTML, CSS, SCRIPT = (f"text/{kind}; charset=utf-8" for kind in ("html", "css", "javascript"))
JSON = "application/json"
STYLES = ("base.css", "desk.css", "views.css", "sizes.css")
SCRIPTS = (
    *("theme.js", "press.js", "fingers.js", "said.js", "alarms.js", "times.js", "cues.js"),
    *("find.js", "faders.js", "levels.js", "desk.js"),
)
FILES = {
    "": ("desk.html", HTML),
    **{name: (name, CSS) for name in STYLES},
    **{name: (name, SCRIPT) for name in SCRIPTS},
}
# For those who have shown no PIN yet.
PIN_FILES = {
    "": ("pin.html", HTML),
    **{name: (name, CSS) for name in ("base.css", "pin.css")},
    **{name: (name, SCRIPT) for name in ("theme.js", "pin.js")},
}
# In milliseconds: how old a press may be when it comes, and by how much a browser that tells no
# fine times may be ahead.
PRESS_DEADLINE = 750
AHEAD = 200


def _read_files(files: dict[str, tuple[str, str]]) -> dict[str, tuple[bytes, str]]:
    """Read once: no disk stands between a press and the night."""
    return {at: ((PAGE / name).read_bytes(), kind) for at, (name, kind) in files.items()}


class DeskServer:
    """The server of one night."""

    def __init__(
        self, here: WordDoor, elsewhere: PinDoor | None, tell: Callable[[str], None]
    ) -> None:
        """`tell` gets what the operator has to know, beside the pages; it may not wait."""
        self.here = here
        self.elsewhere = elsewhere
        self.tell = tell
        self.pages = Pages(self)
        self.is_resuming = threading.Lock()
        # The number of the PINs.
        self.guests = 0
        self.picture: list[str] = []
        self.began = time.monotonic()
        self.files, self.pin_files = _read_files(FILES), _read_files(PIN_FILES)
        self.posts: dict[str, Callable[[socket.socket, Request, Visit], None]] = {
            "command": self._take_command,
            "pins": self._change_pins,
            "resume": self._resume,
        }

    def show(
        self, night: HeardNight, levels: LevelReader, view: dict[str, Any], looks: BlindLooks
    ) -> None:
        """Serves a night from here on."""
        self.night, self.levels, self.view, self.looks = night, levels, view, looks
        self._open(self.here, MOST_CONNECTIONS)
        if self.elsewhere is not None:
            self.elsewhere.pins.tell = self._tell_guests
            self._open(self.elsewhere, MOST_OF_ONE)

    def _tell_guests(self, text: str) -> None:
        self.tell(text)
        self.night.refuse(text, "guest")

    def _open(self, door: Door, most_of_one: int) -> None:
        def take(connection: socket.socket, request: Request, address: str) -> None:
            self._take(door, connection, request, address)

        entrance = Entrance(door.listener, take, refuse, door.tls, most_of_one)
        threading.Thread(target=entrance.serve, daemon=True).start()

    def now(self) -> int:
        """The desk's clock, in milliseconds: monotonic, and of this night."""
        return round((time.monotonic() - self.began) * 1000)

    def guests_view(self) -> dict[str, Any]:
        """How others come in, for this machine's own pages."""
        if self.elsewhere is None:
            return {}
        pins = {role.value: pin for role, pin in self.elsewhere.pins.pins.items()}
        return {"address": self.elsewhere.address, "pins": pins, "picture": self.picture}

    def _take(
        self, door: Door, connection: socket.socket, request: Request, address: str
    ) -> None:
        """Answers a request. This is the thread of a door's requests, so it waits for nothing."""
        try:
            visit = door.visit(request, address)
            if visit.role is None:
                self._take_stranger(connection, request, visit, address)
            elif request.method == "POST":
                self._take_post(connection, request, visit)
            elif visit.name == "events":
                self.pages.open(connection, visit)
            elif visit.name.startswith("look/"):
                self._send_look(connection, visit.name.removeprefix("look/"))
            else:
                self._send_file(connection, self.files, visit.name, HTTPStatus.NOT_FOUND)
        except Stopped as fault:
            refuse(connection, fault.status)

    def _send_file(
        self,
        connection: socket.socket,
        files: dict[str, tuple[bytes, str]],
        name: str,
        missing: HTTPStatus,
    ) -> None:
        if name not in files:
            raise Stopped(missing)
        content, kind = files[name]
        answer(connection, HTTPStatus.OK, content, kind)

    def _send_look(self, connection: socket.socket, cue: str) -> None:
        """The slots of a cue at full, by universe, in hexadecimal. The night does not move."""
        look = self.looks.look(cue)
        if look is None:
            refuse(connection, HTTPStatus.NOT_FOUND, self.looks.reason)
        else:
            slots = {universe: levels.hex() for universe, levels in look.items()}
            answer(connection, HTTPStatus.OK, json.dumps(slots).encode(), JSON)

    def _take_stranger(
        self, connection: socket.socket, request: Request, visit: Visit, address: str
    ) -> None:
        """Answers who has shown no PIN yet."""
        if request.method == "GET":
            self._send_file(connection, self.pin_files, visit.name, HTTPStatus.UNAUTHORIZED)
            return
        door = self.elsewhere
        if door is None or visit.name != "session" or request.body is None:
            raise Stopped(HTTPStatus.UNAUTHORIZED)
        try:
            token = door.pins.enter(request.body.decode("latin-1").strip(), address)
        except Refused as fault:
            refuse(connection, HTTPStatus.FORBIDDEN, str(fault))
        else:
            kept = {"Set_Cookie": door.cookie_header(token)}
            answer(connection, HTTPStatus.NO_CONTENT, b"", PLAIN, **kept)

    def _take_post(self, connection: socket.socket, request: Request, visit: Visit) -> None:
        """What a page asks for, beside files and events."""
        if visit.name not in self.posts:
            raise Stopped(HTTPStatus.NOT_FOUND)
        if visit.role != Role.PLAY:
            refuse(connection, HTTPStatus.FORBIDDEN, "this page only watches")
        elif request.body is None:
            raise Stopped(HTTPStatus.REQUEST_ENTITY_TOO_LARGE)
        else:
            self.posts[visit.name](connection, request, visit)

    def _change_pins(self, connection: socket.socket, request: Request, visit: Visit) -> None:
        """New PINs, and everybody from elsewhere has to show one: asked for on this machine."""
        if not visit.is_here or self.elsewhere is None:
            raise Stopped(HTTPStatus.FORBIDDEN)
        self.elsewhere.pins.change()
        self.guests += 1
        self.night.wake()
        answer(connection, HTTPStatus.NO_CONTENT)

    def _resume(self, connection: socket.socket, request: Request, visit: Visit) -> None:
        """Takes up a night that was broken off, which takes a while: what comes of it is told."""
        if self.is_resuming.acquire(blocking=False):
            threading.Thread(target=self._resume_night, daemon=True).start()
        answer(connection, HTTPStatus.NO_CONTENT)

    def _resume_night(self) -> None:
        try:
            self.night.resume()
        except (Refused, OSError) as fault:
            self.night.refuse(f"not taken up: {fault}")
        finally:
            self.is_resuming.release()

    def _take_command(self, connection: socket.socket, request: Request, visit: Visit) -> None:
        """A command, in plain text: 204 says that it was handed on, the events what came of it."""
        age, seen = self._age(request), self._state_number(request)
        if age is None or seen is None:
            told = "a command says when it was pressed, and which state its page showed"
            refuse(connection, HTTPStatus.BAD_REQUEST, told)
            return
        line = (request.body or b"").decode("latin-1")
        page = self._page(request)
        try:
            if age > PRESS_DEADLINE:
                raise Refused(f"pressed {age / 1000:.1f} s ago, too late: nothing was sent")
            self.night.give(line, Press(time.monotonic() - age / 1000, seen, page))
        except Refused as fault:
            self.night.refuse(f"{printable(line, 40)}: {fault}", page=page)
            refuse(connection, HTTPStatus.CONFLICT, str(fault))
        else:
            answer(connection, HTTPStatus.NO_CONTENT)

    def _age(self, request: Request) -> int | None:
        """How many milliseconds ago a command was pressed, at most; None where it does not say,
        or says a time that has not come."""
        pressed = request.headers.get("Desk-Time", "")
        if not re.fullmatch(r"[0-9]{1,15}", pressed):
            return None
        age = self.now() - int(pressed)
        return age if age >= -AHEAD else None

    def _page(self, request: Request) -> str:
        """The word of the page that asks: what is refused concerns that page alone. Empty where
        there is none."""
        page = request.headers.get("Desk-Page", "")
        return page if re.fullmatch(r"[0-9a-f]{1,16}", page) else ""

    def _state_number(self, request: Request) -> int | None:
        """The number of the state that the page showed; None where it does not say, or there was
        no such state yet."""
        seen = request.headers.get("Desk-State", "")
        if not re.fullmatch(r"[0-9]{1,15}", seen) or int(seen) > self.night.version:
            return None
        return int(seen)
