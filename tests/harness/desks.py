"""What the tests of `tools/desk` share: a desk whose night has begun, and open pages of it."""

import contextlib
import functools
import http.client
import json
import os
import re
import signal
import socket
import threading
import time
import uuid
from pathlib import Path

from machine import Late
from program import run, text
from tooling import PATIENCE, Started, wait_for
from wire import SLOT_1, ReceiverTest

SHOW = text(
    "CUE 1 ! one",
    "CHAN 1@50",
    "CUE 1.5",
    "TEXT half past",
    "UP 2 1",
    "DOWN 1",
    "CHAN 1@FL",
    "CUE 2 ! two <b>s",
    "CHAN 1@20",
    "SUB 1 ! all",
    "CHAN 1@FL",
    "GROUP 3",
    "CHAN 1@50",
    "PATCH 1 1<1@FL",
)


NO_WATCH = "the program has no word watch"
TOO_LATE = "too late: nothing was sent"


@functools.cache
def watches():
    """Whether the program reads levels for a desk."""
    return b"watch" in run("--help").out


class Newest(dict):
    """The newest event of each kind; one that has not come yet is awaited."""

    def __missing__(self, kind):
        wait_for(lambda: kind in self, f"an event {kind}")
        return self[kind]


class Page:
    """An open page: the newest event of each kind, read as they come."""

    def __init__(self, test, address, cookie=None):
        self.host, self.path = re.fullmatch(r"http://([^/]+)(/(?:.*/)?)", address).groups()
        self.cookie = cookie
        self.origin = f"http://{self.host}"
        self.connection = http.client.HTTPConnection(self.host, timeout=PATIENCE)
        self.connection.connect()
        self.socket = self.connection.sock
        kept = {} if cookie is None else {"Cookie": cookie}
        self.connection.request("GET", self.path + "events", headers=kept)
        self.answer = self.connection.getresponse()
        self.newest = Newest()
        # By how much the desk's clock is ahead of this one's, in milliseconds. An event that took
        # long to come says too little, so the greatest counts.
        self.ahead = None
        self.reader = threading.Thread(target=self._read, daemon=True)
        self.reader.start()
        test.addCleanup(self.close)

    def _read(self):
        # What is told to a page while it is closed resets its connection; a desk that is made to
        # stand still may do so for longer than a connection waits.
        with self.answer, contextlib.suppress(ConnectionResetError, TimeoutError):
            kind = None
            for line in self.answer:
                name, _, rest = line.decode().rstrip("\n").partition(": ")
                if name == "id":
                    ahead = int(rest) - round(time.monotonic() * 1000)
                    self.ahead = ahead if self.ahead is None else max(self.ahead, ahead)
                elif name == "event":
                    kind = rest
                elif name == "data" and rest.endswith("}"):
                    self.newest[kind] = json.loads(rest)

    def close(self):
        try:
            self.socket.shutdown(socket.SHUT_RDWR)
        except OSError:
            # It was closed before, here or there.
            pass
        self.reader.join(PATIENCE)
        self.connection.close()

    @property
    def state(self):
        return self.newest.get("state", {})

    def wait(self, **expected):
        """Waits for a state with these values."""

        def holds():
            return all(self.state.get(name) == value for name, value in expected.items())

        try:
            wait_for(holds, expected)
        except AssertionError as missed:
            # A press that a busy machine brings too late is refused, as it should be.
            is_late = any(TOO_LATE in told for told in self.notices())
            kind = Late if is_late else AssertionError
            raise kind(f"{expected} in {self.state}") from missed
        return self.state

    def notices(self):
        return [notice["text"] for notice in self.state.get("notices", [])]

    def request(self, method, name, body=None, path=None, **headers):
        """The status and the answer of a request; a header of None is left out."""
        sent = {"Host": self.host, "Origin": self.origin, "Cookie": self.cookie, **headers}
        if method == "POST":
            sent.setdefault("Desk_Time", self.desk_time())
            wait_for(lambda: self.state, "a state")
            sent.setdefault("Desk_State", self.state["number"])
        connection = http.client.HTTPConnection(self.host, timeout=PATIENCE)
        try:
            connection.putrequest(method, (path or self.path) + name, skip_host=True)
            for header, value in sent.items():
                if value is not None:
                    connection.putheader(header.replace("_", "-"), str(value))
            if body is not None:
                connection.putheader("Content-Length", str(len(body)))
            connection.endheaders(body)
            answer = connection.getresponse()
            return answer.status, answer.read(), answer.headers
        finally:
            connection.close()

    def desk_time(self, ago=0):
        """What the desk's clock says, or said so many milliseconds ago."""
        wait_for(lambda: self.ahead is not None, "an event, which says what the desk's clock is")
        return str(max(round(time.monotonic() * 1000) + self.ahead - ago, 0))

    def command(self, line, **headers):
        return self.request("POST", "command", line.encode(), **headers)[0]


class DeskTest(ReceiverTest):
    SHOW = SHOW

    def setUp(self):
        super().setUp()
        self.cid = self.new_cid()

    def new_cid(self):
        """A CID of its own, since others on this machine may play at the same time."""
        return str(uuid.uuid4())

    def begin(self, *options, to=None):
        """A desk whose night has begun, and its address."""
        self.cid = self.new_cid()
        # Most tests press faster than a hand; the latest of an option counts.
        words = (self.show, "--to", to or self.to, "--cid", self.cid, "--double-go", 0, *options)
        desk = Started(self, "desk", *words)
        line = desk.out.next()
        self.assertRegex(line or "", r"^desk: http://127\.0\.0\.1:\d+/[\w-]{32}/$")
        told = re.match(rf"desk: console {self.cid}, live is process (\d+)", desk.err.next())
        desk.live = int(told[1])
        self.addCleanup(self.kill, desk.live, self.cid)
        return desk, line.removeprefix("desk: ")

    def open_desk(self, *options, **kept):
        """A desk and an open page of it."""
        desk, address = self.begin(*options, **kept)
        page = Page(self, address)
        page.wait(placed=True)
        return desk, page

    def shown_levels(self):
        """The levels that came to the socket since the last look."""
        return {each[SLOT_1] for each in self.came(0.05)}

    def wait_for_level(self, level):
        wait_for(lambda: level in self.shown_levels(), f"level {level}")

    def kill(self, live, cid):
        """Ends a `live` that outlived its desk."""
        words = Path(f"/proc/{live}/cmdline")
        if words.exists() and cid.encode() in words.read_bytes():
            os.kill(live, signal.SIGKILL)
