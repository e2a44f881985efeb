"""The port where Open Sound Control comes, for `tools/osc` and the desk.

Whoever reaches the port may send what it likes, as fast as it likes. So what is asked of a
datagram first costs least: whose it is, how its address begins, and only then what it says. What
is refused is counted, and told in one line a second, so that a flood is no flood of lines.
"""

import fcntl
import socket
import struct
import time
from collections.abc import Callable

from cueplayer_tools.addresses import Address
from cueplayer_tools.line_protocol import Refused, printable
from cueplayer_tools.osc.lines import FRONTS, PREFIX, lines_of
from cueplayer_tools.osc.packets import BUNDLE, messages_of

LONGEST_DATAGRAM = 65_535
READABLE = (*(front.encode() for front in FRONTS), BUNDLE)
# Asks to be told what changes, and not to be told any more: each a message of its own.
SUBSCRIBE, UNSUBSCRIBE = (f"{PREFIX}{word}" for word in ("subscribe", "unsubscribe"))
# Bytes of receive buffer that are asked for; the system grants what it allows.
ROOM = 4 << 20
# Parts of 256 bytes that are read of one sender in a second. A fader sends some 60 datagrams.
MOST_OF_ONE = 1_000
PART = 256
MOST_SENDERS = 4_096
# Seconds of a processor: of a second those for reading, whoever sends, of datagrams of up to a part
# and of longer ones; below, those for reading before the caller looks at anything else.
MOST_READING = {"short": 0.3, "long": 0.1}
# The part of it that one machine takes, from however many ports.
MOST_OF_A_MACHINE = 0.5
MOST_AT_A_STRETCH = 0.002
# Datagrams that are taken before the caller looks at anything else.
MOST_AT_ONCE = 256
# Seconds after which a press is none any more, and between two lines of what is refused.
LATE = 1.0
EVERY = 1.0
# Of Linux, not named in `socket`: the arrival of the datagram read last, and a socket's counts.
_SIOCGSTAMP, _SO_MEMINFO, _DROPS = 0x8906, 55, 8
_TIME, _COUNTS = struct.Struct("@ll"), struct.Struct("@9I")

Give = Callable[[str], None]
Ask = Callable[[Address, str], bool]


class Refusals:
    """What was refused: told at once where nothing was told for a second, else counted."""

    def __init__(self, tell: Callable[[str], None]) -> None:
        self.tell = tell
        self.is_quiet = True
        self.count = 0
        self.latest: tuple[Address, str | bytes] | None = None

    def add(self, sender: Address, reason: str | bytes) -> None:
        """Counts a refusal; a datagram stands for the reason that reading it would give."""
        self.count += 1
        self.latest = sender, reason
        if self.is_quiet:
            self.flush()

    def flush(self) -> None:
        """Tells what was counted. Called once a second."""
        self.is_quiet = not self.count
        if self.latest is None:
            return
        (host, port), reason = self.latest
        text = reason if isinstance(reason, str) else reason_of(reason)
        one = f"refused from {host}:{port}: {text}"
        more = f"refused {self.count} in a second, the latest from {host}:{port}: {text}"
        self.tell(one if self.count == 1 else more)
        self.count, self.latest = 0, None


def read(datagram: bytes) -> tuple[list[str], list[str]]:
    """The lines of a datagram and what is refused of it, whatever it holds."""
    try:
        return lines_of(datagram)
    except Exception as fault:
        # A fault of the reader must not end the night.
        return [], [f"cannot be read ({type(fault).__name__}): {printable(datagram)}"]


def reason_of(datagram: bytes) -> str:
    """Why a datagram is refused."""
    return next(iter(read(datagram)[1]), "no such address")


def _kind(datagram: bytes) -> str:
    """Whether a datagram is long to read."""
    return "long" if len(datagram) > PART else "short"


class OscPort:
    """A port of this machine; what comes there is handed on as lines, in its order."""

    def __init__(self, receiver: socket.socket, tell: Callable[[str], None]) -> None:
        """Takes what comes to this socket. `tell` may not wait."""
        # Takes who wants to be told, where somebody is told at all.
        self.ask: Ask | None = None
        self.socket = receiver
        self.socket.setblocking(False)
        self.socket.setsockopt(socket.SOL_SOCKET, socket.SO_RCVBUF, ROOM)
        self.tell = tell
        self.refusals = Refusals(tell)
        self.spent: dict[Address, int] = {}
        self.reading = dict.fromkeys(MOST_READING, 0.0)
        # The same of each machine, by its address.
        self.reading_of: dict[tuple[str, str], float] = {}
        self.second = time.monotonic()
        self.lost = 0
        # Asked once, the system notes the arrival of each datagram.
        self._age()

    def fileno(self) -> int:
        """For `select.poll`."""
        return self.socket.fileno()

    def patience(self) -> float | None:
        """Seconds after which `take` has to be called though nothing comes."""
        if not self.spent and self.refusals.is_quiet:
            return None
        return max(self.second + EVERY - time.monotonic(), 0.0)

    def take(self, give: Give) -> None:
        """Hands on the lines of what has come. `give` may refuse one, and may not wait."""
        now = time.monotonic()
        if now - self.second >= EVERY:
            self._end_second(now)
        until = sum(self.reading.values()) + MOST_AT_A_STRETCH
        for _ in range(MOST_AT_ONCE):
            try:
                datagram, sender = self.socket.recvfrom(LONGEST_DATAGRAM)
            except OSError:
                # Nothing is there, or the system's reason is of one datagram alone.
                return
            if not datagram.startswith(READABLE):
                self.refusals.add(sender, datagram)
            elif self._has_spent(sender, datagram):
                self.refusals.add(sender, f"more than {MOST_OF_ONE} datagrams in a second")
            elif told := self._lacks_time(sender, _kind(datagram)):
                self.refusals.add(sender, told)
            else:
                self._hand_on(datagram, sender, give)
                if sum(self.reading.values()) > until:
                    return

    def _has_spent(self, sender: Address, datagram: bytes) -> bool:
        if len(self.spent) >= MOST_SENDERS:
            self.spent.clear()
        spent = self.spent.get(sender, 0) + 1 + len(datagram) // PART
        self.spent[sender] = spent
        return spent > MOST_OF_ONE

    def _lacks_time(self, sender: Address, kind: str) -> str:
        """Why there is no time to read a datagram of this kind; empty where there is."""
        most = MOST_READING[kind]
        if self.reading[kind] > most:
            return f"more {kind} datagrams in a second than can be read"
        if self.reading_of.get((sender[0], kind), 0.0) > most * MOST_OF_A_MACHINE:
            return f"more {kind} datagrams of one machine in a second than can be read"
        return ""

    def _asks(self, datagram: bytes, sender: Address) -> bool:
        """Whether this was somebody who wants to be told, or not any more."""
        word = datagram.partition(b"\0")[0].decode("latin-1")
        if self.ask is None or word not in (SUBSCRIBE, UNSUBSCRIBE):
            return False
        try:
            messages_of(datagram)
        except Refused as refusal:
            self.refusals.add(sender, f"{word}: {refusal}")
            return True
        if not self.ask(sender, word):
            self.refusals.add(sender, f"{word}: there are too many subscribers already")
        return True

    def _hand_on(self, datagram: bytes, sender: Address, give: Give) -> None:
        if self._asks(datagram, sender):
            return
        began = time.thread_time()
        lines, refused = read(datagram)
        self._spend(sender, _kind(datagram), time.thread_time() - began)
        age = self._age() if lines else 0.0
        for line in lines:
            try:
                if age > LATE:
                    raise Refused(f"it came {age:.1f} s ago, too late")
                give(line)
            except Refused as fault:
                refused.append(f"{line}: {fault}")
        for reason in refused:
            self.refusals.add(sender, reason)

    def _spend(self, sender: Address, kind: str, seconds: float) -> None:
        """Counts the time that reading a datagram took."""
        if len(self.reading_of) >= MOST_SENDERS:
            self.reading_of.clear()
        of_machine = self.reading_of.get((sender[0], kind), 0.0)
        self.reading_of[sender[0], kind] = of_machine + seconds
        self.reading[kind] += seconds

    def _age(self) -> float:
        """Seconds since the datagram that was read last came; 0 where the system does not say."""
        try:
            arrival = fcntl.ioctl(self.socket, _SIOCGSTAMP, bytes(_TIME.size))
        except OSError:
            return 0.0
        seconds, microseconds = _TIME.unpack(arrival)
        return time.time() - float(seconds) - float(microseconds) / 1e6

    def _end_second(self, now: float) -> None:
        self.second = now
        self.spent.clear()
        self.reading = dict.fromkeys(MOST_READING, 0.0)
        self.reading_of.clear()
        self.refusals.flush()
        lost = self._lost_count()
        if lost != self.lost:
            more = (lost - self.lost) % 2**32
            told = f"{more} datagrams lost, unread: too many came"
            self.tell(f"{told}; press again if nothing happened")
            self.lost = lost

    def _lost_count(self) -> int:
        """How many datagrams found no room; as before where the system does not say."""
        try:
            counts = self.socket.getsockopt(socket.SOL_SOCKET, _SO_MEMINFO, _COUNTS.size)
            return int(_COUNTS.unpack(counts)[_DROPS])
        except (OSError, struct.error):
            return self.lost
