"""Requests over HTTP that come whole, and in time, or not at all.

Whoever reaches the desk may connect, be slow, or be a thousand. One thread reads them all: a
connection has two seconds for its request, and where too many have not sent theirs the one that
waits longest is closed for the next, of the same address where that has many. An honest page sends
its request at once, so it is served.
"""

import http.client
import io
import re
import selectors
import socket
import ssl
import time
from collections.abc import Callable
from dataclasses import dataclass, field
from http import HTTPStatus

# A browser's head has some 700 bytes.
LONGEST_HEAD = 8_192
LONGEST_BODY = 200
DEADLINE = 2.0
MOST_CONNECTIONS = 128
# Of one address from elsewhere.
MOST_OF_ONE = 32
MOST_AT_ONCE = 8
HEAD_END = b"\r\n\r\n"
# Of two of these nobody knows which counts (RFC 9112, 3.2 and 6.3).
ONCE = ("Host", "Origin", "Content-Length")
_FIRST_LINE = re.compile(r"([A-Z]+) (\S+) HTTP/1\.[01]\r\n", re.ASCII)


class Unreadable(ValueError):
    """What came is no request."""

    def __init__(self, status: HTTPStatus) -> None:
        super().__init__(status.phrase)
        self.status = status


@dataclass(frozen=True)
class Request:
    """A request that came whole."""

    method: str
    path: str
    headers: http.client.HTTPMessage
    # None where it names no length, or one that is too great.
    body: bytes | None


def _head_in(head: bytes) -> tuple[str, str, http.client.HTTPMessage]:
    first = _FIRST_LINE.match(head.decode("latin-1"))
    if first is None:
        raise Unreadable(HTTPStatus.BAD_REQUEST)
    try:
        headers = http.client.parse_headers(io.BytesIO(head[first.end() :]))
    except http.client.HTTPException as fault:
        raise Unreadable(HTTPStatus.REQUEST_HEADER_FIELDS_TOO_LARGE) from fault
    is_doubtful = any(len(headers.get_all(name, [])) > 1 for name in ONCE)
    if is_doubtful or headers["Transfer-Encoding"] is not None:
        raise Unreadable(HTTPStatus.BAD_REQUEST)
    return first[1], first[2], headers


def request_in(data: bytes, is_over: bool) -> Request | None:
    """The request that these bytes are; None where more has to come. Unreadable where it cannot
    be one any more: cut off, with more than it says, or too long."""
    end = data.find(HEAD_END)
    if end < 0 and not is_over and len(data) <= LONGEST_HEAD:
        return None
    if end < 0 or end > LONGEST_HEAD:
        too_long = HTTPStatus.REQUEST_HEADER_FIELDS_TOO_LARGE
        raise Unreadable(too_long if len(data) > LONGEST_HEAD else HTTPStatus.BAD_REQUEST)
    body_at = end + len(HEAD_END)
    method, path, headers = _head_in(data[:body_at])
    length, body = headers.get("Content-Length", ""), data[body_at:]
    if method != "POST" or not re.fullmatch(r"[0-9]{1,9}", length) or int(length) > LONGEST_BODY:
        return Request(method, path, headers, None)
    missing = int(length) - len(body)
    if missing < 0 or (missing and is_over):
        raise Unreadable(HTTPStatus.BAD_REQUEST)
    return None if missing else Request(method, path, headers, body)


@dataclass
class _Arrival:
    """A connection whose request has not come whole yet."""

    connection: socket.socket
    address: str
    until: float
    # Whether TLS is still agreed on.
    is_shaking: bool = False
    data: bytearray = field(default_factory=bytearray)

    def read(self) -> bool:
        """Reads what is there; whether all has come, as far as the other side says."""
        try:
            if self.is_shaking and isinstance(self.connection, ssl.SSLSocket):
                self.connection.do_handshake()
                self.is_shaking = False
            while more := self.connection.recv(LONGEST_HEAD + LONGEST_BODY):
                self.data += more
                if len(self.data) > LONGEST_HEAD + LONGEST_BODY:
                    return False
        except (BlockingIOError, ssl.SSLWantReadError, ssl.SSLWantWriteError):
            return False
        except OSError:
            # It has gone, or what it speaks is no TLS.
            pass
        return True


class Entrance:
    """Where connections come in."""

    def __init__(
        self,
        listener: socket.socket,
        take: Callable[[socket.socket, Request, str], None],
        refuse: Callable[[socket.socket, HTTPStatus], None],
        tls: ssl.SSLContext | None = None,
        most_of_one: int = MOST_CONNECTIONS,
    ) -> None:
        """`take` and `refuse` get each connection, which does not block, as their own, and `take`
        the address from which it comes. Neither may wait. An address has `most_of_one` connections
        that have not sent their request."""
        self.listener = listener
        self.listener.setblocking(False)
        self.take = take
        self.refuse = refuse
        self.tls = tls
        self.most_of_one = most_of_one
        # Those that came first stand first.
        self.arrivals: dict[socket.socket, _Arrival] = {}
        self.selector = selectors.DefaultSelector()
        self.selector.register(listener, selectors.EVENT_READ)

    def serve(self) -> None:
        """Serves for ever."""
        while True:
            ready = self.selector.select(self._patience())
            for key, _ in ready:
                if key.fileobj is self.listener:
                    self._accept()
                    continue
                assert isinstance(key.fileobj, socket.socket)
                if (arrival := self.arrivals.get(key.fileobj)) is not None:
                    self._read(arrival)
            self._close_late()

    def _patience(self) -> float | None:
        for arrival in self.arrivals.values():
            return max(arrival.until - time.monotonic(), 0.0)
        return None

    def _accept(self) -> None:
        for _ in range(MOST_AT_ONCE):
            try:
                connection, (address, _) = self.listener.accept()
            except (BlockingIOError, ConnectionAbortedError):
                return
            except OSError:
                # No descriptor is left: the oldest gives its own.
                self._close_oldest()
                return
            self._make_room(address)
            connection.setblocking(False)
            try:
                self._begin(connection, address)
            except OSError:
                # It has gone before a word was said.
                connection.close()

    def _begin(self, connection: socket.socket, address: str) -> None:
        if self.tls is not None:
            connection = self.tls.wrap_socket(
                connection, server_side=True, do_handshake_on_connect=False
            )
        until = time.monotonic() + DEADLINE
        arrival = _Arrival(connection, address, until, self.tls is not None)
        self.arrivals[connection] = arrival
        self.selector.register(connection, selectors.EVENT_READ)

    def _make_room(self, address: str) -> None:
        """Closes the oldest where there are too many, of this address or of all."""
        same = [each for each in self.arrivals.values() if each.address == address]
        if len(same) >= self.most_of_one:
            self._leave(same[0])
            same[0].connection.close()
        elif len(self.arrivals) >= MOST_CONNECTIONS:
            self._close_oldest()

    def _read(self, arrival: _Arrival) -> None:
        is_over = arrival.read()
        try:
            if is_over and not arrival.data:
                # A browser's connection to spare.
                self._leave(arrival)
                arrival.connection.close()
                return
            request = request_in(bytes(arrival.data), is_over)
            if request is not None:
                self._leave(arrival)
                self.take(arrival.connection, request, arrival.address)
        except Unreadable as fault:
            self._leave(arrival)
            self.refuse(arrival.connection, fault.status)
        except Exception:
            # A fault at one request must not end the answers to all others.
            self._leave(arrival)
            arrival.connection.close()

    def _leave(self, arrival: _Arrival) -> None:
        if self.arrivals.pop(arrival.connection, None) is not None:
            self.selector.unregister(arrival.connection)

    def _close_oldest(self) -> None:
        for arrival in self.arrivals.values():
            self._leave(arrival)
            arrival.connection.close()
            return
        # Others of this process hold all descriptors; one will be free.
        time.sleep(0.01)

    def _close_late(self) -> None:
        now = time.monotonic()
        for arrival in [each for each in self.arrivals.values() if each.until <= now]:
            self._leave(arrival)
            if arrival.data and not arrival.is_shaking:
                self.refuse(arrival.connection, HTTPStatus.REQUEST_TIMEOUT)
            else:
                # A browser's connection to spare.
                arrival.connection.close()
