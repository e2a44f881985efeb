"""The two ways to a desk's page: on this machine by a word in its address, and from elsewhere by a
PIN. A door says whose a request is, and refuses those that another site, or nobody, sent."""

import hmac
import re
import secrets
import socket
import ssl
from abc import ABC, abstractmethod
from dataclasses import dataclass
from http import HTTPStatus

from cueplayer_tools.addresses import LOOPBACK, Address
from cueplayer_tools.desk.pins import Pins, Role, Session
from cueplayer_tools.desk.requests import Request

MOST_WAITING = 1_024
USUAL_PORTS = {"http": 80, "https": 443}


@dataclass(frozen=True)
class Visit:
    """A request that may be answered: what it asks for, and who asks. Nobody where no PIN was
    shown yet."""

    name: str
    role: Role | None
    # None where it comes by the word.
    session: Session | None = None

    @property
    def is_here(self) -> bool:
        """Whether it comes from this machine, by its word."""
        return self.role is not None and self.session is None


class Stopped(Exception):
    """A request that is not answered, and why not."""

    def __init__(self, status: HTTPStatus) -> None:
        super().__init__(status.phrase)
        self.status = status


def _listener(address: Address) -> socket.socket:
    listener = socket.socket(socket.AF_INET, socket.SOCK_STREAM)
    try:
        listener.setsockopt(socket.SOL_SOCKET, socket.SO_REUSEADDR, 1)
        listener.bind(address)
        listener.listen(MOST_WAITING)
    except OSError:
        listener.close()
        raise
    return listener


class Door(ABC):
    """Where connections come in."""

    def __init__(self, address: Address, names: list[str], tls: ssl.SSLContext | None) -> None:
        """Listens at an address, which has these names too."""
        self.listener = _listener(address)
        self.tls = tls
        self.host, self.port = self.listener.getsockname()
        self.scheme = "http" if tls is None else "https"
        hosts = [f"{name}:{self.port}" for name in (self.host, *names)]
        if self.port == USUAL_PORTS[self.scheme]:
            hosts += [self.host, *names]
        self.hosts = frozenset(host.lower() for host in hosts)
        self.origins = frozenset(f"{self.scheme}://{host}" for host in self.hosts)

    @property
    @abstractmethod
    def address(self) -> str:
        """The address of the page."""

    @abstractmethod
    def visit(self, request: Request, address: str) -> Visit:
        """Whose a request of this address is; Stopped where it is not answered."""

    def _check(self, request: Request) -> None:
        """Stops what another site sent, or what was sent to another name."""
        if request.method not in ("GET", "POST"):
            raise Stopped(HTTPStatus.NOT_IMPLEMENTED)
        if request.headers.get("Host", "").lower() not in self.hosts:
            raise Stopped(HTTPStatus.FORBIDDEN)
        origin = request.headers.get("Origin")
        if origin is None and request.method == "POST":
            raise Stopped(HTTPStatus.FORBIDDEN)
        if origin is not None and origin.lower() not in self.origins:
            raise Stopped(HTTPStatus.FORBIDDEN)
        if request.headers.get("Sec-Fetch-Site", "none") not in ("same-origin", "none"):
            raise Stopped(HTTPStatus.FORBIDDEN)


class WordDoor(Door):
    """On this machine alone: the address holds a word that nobody guesses."""

    def __init__(self, port: int) -> None:
        super().__init__((LOOPBACK, port), ["localhost"], None)
        self.word = secrets.token_urlsafe(24)

    @property
    def address(self) -> str:
        return f"http://{LOOPBACK}:{self.port}/{self.word}/"

    def visit(self, request: Request, address: str) -> Visit:
        self._check(request)
        word, _, name = request.path.removeprefix("/").partition("/")
        if not hmac.compare_digest(word.encode("latin-1"), self.word.encode()):
            raise Stopped(HTTPStatus.NOT_FOUND)
        return Visit(name, Role.PLAY)


class PinDoor(Door):
    """From elsewhere: who has shown a PIN has a session, which its browser keeps as a cookie."""

    def __init__(
        self, address: Address, pins: Pins, names: list[str], tls: ssl.SSLContext | None
    ) -> None:
        super().__init__(address, names, tls)
        self.pins = pins
        # A browser sends the cookies of all ports of a host.
        self.cookie = f"desk-{self.port}"

    @property
    def address(self) -> str:
        return f"{self.scheme}://{self.host}:{self.port}/"

    def visit(self, request: Request, address: str) -> Visit:
        self._check(request)
        session = self._session(request, address)
        role = None if session is None else session.role
        return Visit(request.path.removeprefix("/"), role, session)

    def _session(self, request: Request, address: str) -> Session | None:
        pattern = rf"(?:^|; ?){re.escape(self.cookie)}=([\w-]{{1,64}})(?:;|$)"
        found = re.search(pattern, request.headers.get("Cookie", ""), re.ASCII)
        return None if found is None else self.pins.session(found[1], address)

    def cookie_header(self, token: str) -> str:
        """The header by which a browser keeps a session."""
        secure = "" if self.tls is None else "; Secure"
        return f"{self.cookie}={token}; Path=/; HttpOnly; SameSite=Strict{secure}"
