"""Pages that are open: each gets the whole state at each change, as server-sent events.

So a page may be closed, opened again, or open twice. Each has a thread of its own, and a slow one
delays nobody. It ends with its session.
"""

import json
import socket
import threading
import time
from http import HTTPStatus
from typing import TYPE_CHECKING, Any

from cueplayer_tools.desk.answers import head, refuse
from cueplayer_tools.desk.doors import Visit
from cueplayer_tools.desk.pins import Role
from cueplayer_tools.desk.view import state_view

if TYPE_CHECKING:
    from cueplayer_tools.desk.server import DeskServer

# Pages of a kind: by the word, by a PIN that plays, and by one that watches.
MOST_PAGES = 32
# A page that hears nothing for longer than some of these takes the desk for lost.
ALIVE_EVERY = 0.5
LEVELS_EVERY = 0.1
STATE_EVERY = 0.02
# So long may one page block its own thread.
PAGE_PATIENCE = 30.0


def _event(now: int, kind: str, data: dict[str, Any]) -> bytes:
    """An event, whose identity is the desk's clock before it was sent."""
    text = json.dumps(data, separators=(",", ":"))
    return f"id: {now}\nevent: {kind}\ndata: {text}\n\n".encode()


class Pages:
    """The pages that are open."""

    def __init__(self, server: "DeskServer") -> None:
        self.server = server
        self.was_opened = False
        kinds = [(is_here, role) for is_here in (True, False) for role in Role]
        self.rooms = {kind: threading.BoundedSemaphore(MOST_PAGES) for kind in kinds}

    def open(self, connection: socket.socket, visit: Visit) -> None:
        """Sends events to a page from here on."""
        assert visit.role is not None
        room = self.rooms[visit.is_here, visit.role]
        if not room.acquire(blocking=False):
            refuse(connection, HTTPStatus.SERVICE_UNAVAILABLE, "too many pages are open")
            return
        self.was_opened = True
        connection.settimeout(PAGE_PATIENCE)
        page = _OpenPage(self.server, connection, visit)

        def send() -> None:
            try:
                page.send()
            finally:
                room.release()

        threading.Thread(target=send, daemon=True).start()


class _OpenPage:
    """A page that is open, and gets events."""

    def __init__(self, server: "DeskServer", connection: socket.socket, visit: Visit) -> None:
        self.server = server
        self.connection = connection
        self.visit = visit
        # What the page has: the numbers of the state, the levels and the guests.
        self.state = self.levels = self.guests = -1
        self.slots: dict[int, bytes] = {}

    def send(self) -> None:
        """Sends events until the page is closed."""
        role = self.visit.role
        show = {**self.server.view, "role": role and role.value, "here": self.visit.is_here}
        try:
            with self.connection:
                self.connection.sendall(head(HTTPStatus.OK, "text/event-stream", {}))
                self._event("show", show)
                while not self._is_over():
                    self._send_changes()
        except OSError:
            # The page was closed.
            pass

    def _is_over(self) -> bool:
        return self.visit.session is not None and self.visit.session.is_over

    def _is_new(self) -> bool:
        """Whether there is something that the page does not have."""
        server = self.server
        now = (server.night.version, server.levels.levels.version)
        is_new = (self.state, self.levels) != now
        return is_new or (self.visit.is_here and self.guests != server.guests) or self._is_over()

    def _send_changes(self) -> None:
        """Waits for changes, and sends them; or that the desk is there."""
        night, levels = self.server.night, self.server.levels.levels
        state = None
        with night.changed:
            is_alive = not night.changed.wait_for(self._is_new, ALIVE_EVERY)
            if self.state != night.version:
                self.state, state = night.version, state_view(night)
        if self._is_over():
            return
        if is_alive:
            self._event("alive", {})
        if state is not None:
            self._event("state", state)
            time.sleep(STATE_EVERY)
        if self.visit.is_here and self.guests != self.server.guests:
            self.guests = self.server.guests
            self._event("guests", self.server.guests_view())
        if self.levels != levels.version:
            self.levels = levels.version
            self._send_levels()
            time.sleep(LEVELS_EVERY)

    def _send_levels(self) -> None:
        """Sends the universes that changed."""
        levels = self.server.levels.levels
        slots = dict(levels.slots)
        changed = {at: slots[at].hex() for at in slots if slots[at] != self.slots.get(at)}
        told = {"reasons": levels.reasons, "slots": changed, "others": vars(levels.others)}
        self._event("levels", told)
        self.slots = slots

    def _event(self, kind: str, data: dict[str, Any]) -> None:
        self.connection.sendall(_event(self.server.now(), kind, data))
