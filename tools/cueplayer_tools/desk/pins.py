"""Who comes from elsewhere: a PIN for each role, and the sessions of those who showed one.

A PIN has six digits, so it is guarded against who tries them all: five wrong ones lock an address
for a minute, and where many addresses try, nobody new gets in for as long. Sessions that there are
go on.
"""

import hashlib
import hmac
import secrets
import threading
import time
from collections.abc import Callable
from dataclasses import dataclass
from enum import Enum

from cueplayer_tools.desk.pin_file import PinFile
from cueplayer_tools.line_protocol import Refused

DIGITS = 6
# Wrong PINs of one address, and of all, in `LOCKED` seconds; and sessions of a role.
MOST_WRONG = 5
MOST_WRONG_OF_ALL = 30
LOCKED = 60.0
MOST_SESSIONS = 64


class Role(Enum):
    """What a page may do."""

    PLAY = "play"
    WATCH = "watch"


@dataclass
class Session:
    """Someone who showed a PIN, at an address."""

    role: Role
    address: str
    is_over: bool = False


def _digest(token: str) -> bytes:
    """What is kept of a session's token: how long a search takes says nothing about it."""
    return hashlib.sha256(token.encode("latin-1")).digest()


class Attempts:
    """Wrong PINs of the last minute, by address."""

    def __init__(self) -> None:
        self.wrong: list[tuple[float, str]] = []
        self.locked: dict[str, float] = {}
        # When an address showed a right one: those before count no more for it.
        self.right: dict[str, float] = {}

    def check(self, address: str) -> None:
        """Refuses an address that is locked, or anybody where too many were wrong."""
        now = time.monotonic()
        self.wrong = [each for each in self.wrong if now - each[0] < LOCKED]
        self.right = {each: at for each, at in self.right.items() if now - at < LOCKED}
        self.locked = {each: until for each, until in self.locked.items() if until > now}
        if address in self.locked:
            left = self.locked[address] - now
            raise Refused(f"{MOST_WRONG} wrong PINs came from here: wait {left:.0f} seconds")
        if len(self.wrong) >= MOST_WRONG_OF_ALL:
            raise Refused("many wrong PINs came: wait a minute")

    def add(self, address: str) -> bool:
        """Takes a wrong one; whether the address is locked for it."""
        now = time.monotonic()
        self.wrong.append((now, address))
        since = self.right.get(address, -1.0)
        count = sum(each == address and at > since for at, each in self.wrong)
        if count >= MOST_WRONG:
            self.locked[address] = now + LOCKED
        return count >= MOST_WRONG

    def forgive(self, address: str) -> None:
        """The address showed a right one."""
        self.right[address] = time.monotonic()


class Pins:
    """The PINs of this desk, and who showed them. One door changes them while another asks."""

    def __init__(self, kept: PinFile | None = None, is_new: bool = False) -> None:
        """Takes those that are kept, where there are any and no new ones are asked for."""
        self.lock = threading.Lock()
        self.kept, self.keeping = kept, threading.Lock()
        # Gets what the operator has to know.
        self.tell: Callable[[str], None] = lambda text: None
        self.attempts = Attempts()
        self.sessions: dict[bytes, Session] = {}
        self.pins: dict[Role, str] = {}
        found = None if kept is None or is_new else kept.read()
        if found is None:
            self._change()
            self._keep()
        else:
            self.pins = dict(zip((Role.PLAY, Role.WATCH), found))

    def change(self) -> None:
        """Makes new PINs, and ends all sessions. No disk holds up whoever asks for it."""
        with self.lock:
            self._change()
        threading.Thread(target=self._keep, daemon=True).start()

    def _keep(self) -> None:
        """Keeps the PINs that there are now."""
        with self.keeping:
            if self.kept is not None:
                self.kept.write(self.pins[Role.PLAY], self.pins[Role.WATCH])

    def _change(self) -> None:
        for session in self.sessions.values():
            session.is_over = True
        self.sessions = {}
        play, watch = secrets.randbelow(10**DIGITS), secrets.randbelow(10**DIGITS - 1)
        # Two of one kind would be one.
        watch += watch >= play
        self.pins = {Role.PLAY: f"{play:0{DIGITS}}", Role.WATCH: f"{watch:0{DIGITS}}"}

    def enter(self, pin: str, address: str) -> str:
        """The token of a new session; Refused where this is no PIN, or the address is locked."""
        with self.lock:
            self.attempts.check(address)
            roles = [role for role in Role if _is_same(pin, self.pins[role])]
            if roles:
                return self._begin(roles[0], address)
            is_locked = self.attempts.add(address)
        if is_locked:
            self.tell(f"{MOST_WRONG} wrong PINs came from {address}: it is locked for a minute")
        raise Refused("wrong PIN: the right one stands on the desk's terminal, and on its own page")

    def _begin(self, role: Role, address: str) -> str:
        """The token of a new session."""
        self.attempts.forgive(address)
        self._make_room(role)
        token = secrets.token_urlsafe(24)
        self.sessions[_digest(token)] = Session(role, address)
        return token

    def session(self, token: str, address: str) -> Session | None:
        """The session of this token, at the address that began it; None where there is none."""
        with self.lock:
            session = self.sessions.get(_digest(token))
        return session if session is not None and session.address == address else None

    def _make_room(self, role: Role) -> None:
        """The oldest of a role ends where there are too many."""
        of_role = [each for each, session in self.sessions.items() if session.role == role]
        if len(of_role) >= MOST_SESSIONS:
            self.sessions.pop(of_role[0]).is_over = True


def _is_same(pin: str, other: str) -> bool:
    return hmac.compare_digest(pin.encode("latin-1", "replace"), other.encode())
