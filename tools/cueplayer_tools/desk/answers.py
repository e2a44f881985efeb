"""Answers over HTTP: what they say, and what a page may load."""

import socket
from http import HTTPStatus

PLAIN = "text/plain; charset=utf-8"
HEADERS = {
    "Content-Security-Policy": (
        "default-src 'none'; script-src 'self'; style-src 'self'; connect-src 'self'; "
        "base-uri 'none'; form-action 'none'; frame-ancestors 'none'"
    ),
    "Referrer-Policy": "no-referrer",
    "X-Content-Type-Options": "nosniff",
    "Cross-Origin-Opener-Policy": "same-origin",
    "Cross-Origin-Resource-Policy": "same-origin",
    "Cache-Control": "no-store",
    "Connection": "close",
}
# The system takes an answer of this many bytes at once, also of a slow receiver.
ROOM = 200_000


def head(status: HTTPStatus, kind: str, more: dict[str, str]) -> bytes:
    """The head of an answer."""
    headers = {"Content-Type": kind, **HEADERS, **more}
    lines = [f"HTTP/1.1 {status.value} {status.phrase}"]
    lines += [f"{name}: {value}" for name, value in headers.items()]
    return "\r\n".join([*lines, "", ""]).encode()


def answer(
    connection: socket.socket,
    status: HTTPStatus,
    content: bytes = b"",
    kind: str = PLAIN,
    **more: str,
) -> None:
    """Answers, and closes. An answer is short enough for the system to take it at once."""
    headers = {name.replace("_", "-"): value for name, value in more.items()}
    if status != HTTPStatus.NO_CONTENT:
        headers["Content-Length"] = str(len(content))
    with connection:
        try:
            connection.setsockopt(socket.SOL_SOCKET, socket.SO_SNDBUF, ROOM)
            connection.sendall(head(status, kind, headers) + content)
            connection.shutdown(socket.SHUT_WR)
        except OSError:
            # It has gone.
            pass


def refuse(connection: socket.socket, status: HTTPStatus, told: str = "") -> None:
    """Answers why not, in one line."""
    answer(connection, status, (told or status.phrase).encode() + b"\n")
