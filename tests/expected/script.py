"""The scripts of `rehearse` (FORMATS.md)."""

from typing import NamedTuple

from .desk import Desk, LATEST, command
from .receiver import Receiver
from .words import hex_bytes, lines_of, moment, number, uuid, words_of

LONGEST = 16_777_216
WIDE = 65535


class Console(NamedTuple):
    base: int
    priority: int
    cid: bytes
    name: str = "cueplayer"


class Event(NamedTuple):
    line: int
    moment: int
    name: str
    values: tuple


def header(words):
    """The header that a line's words spell: a Console, the number of a universe, or None."""
    name = words[0].lower()
    if name == b"console" and len(words) == 4:
        console = Console(number(words[1], 1, 63999), number(words[2], 0, 200), uuid(words[3]))
        return None if None in console else console
    if name == b"receiver" and len(words) == 2:
        return number(words[1], 1, 63999)
    return None


def event(line, words):
    """The event that a line's words spell, or None."""
    at, name, given = moment(words[0]), words[1:2], words[2:]
    if at is None or not name or not given:
        return None
    name = name[0].lower().decode("latin-1")
    if name == "do":
        values = (number(given[0], most=WIDE), command(given[1:]))
    elif name in ("tick", "slots") and len(given) == 1:
        values = (number(given[0], most=WIDE),)
    elif name == "deliver" and len(given) == 4:
        values = (*(number(word, most=WIDE) for word in given[:3]), moment(given[3]))
    elif name == "stray" and len(given) <= 2:
        values = (number(given[0], most=WIDE), hex_bytes(given[1]) if given[1:] else b"")
    else:
        return None
    return None if None in values else Event(line, at, name, values)


def read(script):
    """The consoles, receivers and events of a script, or the text that refuses it."""
    consoles, receivers, events = [], [], []
    for n, line in enumerate(lines_of(script), 1):
        words = words_of(line)
        if not words:
            continue
        if words[0].lower() in (b"console", b"receiver"):
            said = header(words) if not events else None
            (consoles if isinstance(said, Console) else receivers).append(said)
        else:
            said = event(n, words)
            events.append(said)
        if said is None:
            return f"line {n} refused"
    return consoles, receivers, events


def setup_fault(show, consoles, receivers):
    if not 1 <= len(consoles) <= 4:
        return "setup: Consoles"
    if len(receivers) > 8 or len(set(receivers)) < len(receivers):
        return "setup: Receivers"
    highest = max(show.universes(), default=0)
    if any(console.base + highest > 63999 for console in consoles):
        return "setup: Universe"
    return None


class Night:
    """A rehearsal: consoles, receivers, and the packets that were sent."""

    def __init__(self, show, consoles, receivers, wire):
        self.consoles = consoles
        self.desks = [Desk(show, console.base) for console in consoles]
        self.receivers = [Receiver(universe) for universe in receivers]
        self.wire = wire
        self.now = 0

    def reply(self, said):
        """The reply to an event, as it is printed."""
        skip = self.skip(said)
        if skip:
            return "skipped " + skip
        self.now = said.moment
        if said.name == "do":
            refusal = self.desks[said.values[0]].order(said.moment, said.values[1])
            return "refused " + refusal if refusal else "ok"
        if said.name == "tick":
            return tick_text(self.desks[said.values[0]].tick(said.moment))
        receiver = self.receivers[said.values[0]]
        if said.name == "slots":
            return receiver.slots_line(said.moment)
        if said.name == "stray":
            return receiver.take(said.moment, said.values[1])
        _, console, universe, k = said.values
        sent = self.desks[console].streams[universe][1].packets[k]
        return receiver.take(said.moment, self.wire(universe, sent, self.consoles[console]))

    def skip(self, said):
        """Why an event cannot be, or None."""
        if said.moment < self.now:
            return "Backwards"
        if said.moment >= LATEST:
            return "TooLarge"
        console = {"do": 0, "tick": 0, "deliver": 1}.get(said.name)
        if console is not None and said.values[console] >= len(self.desks):
            return "NoConsole"
        if said.name not in ("do", "tick") and said.values[0] >= len(self.receivers):
            return "NoReceiver"
        if said.name == "deliver":
            _, console, universe, k = said.values
            streams = self.desks[console].streams
            if universe not in streams or k >= len(streams[universe][1].packets):
                return "NotSent"
        return None


def tick_text(answer):
    """What is printed of a tick's answer."""
    if isinstance(answer, str):
        return "refused " + answer
    ending, offers = answer
    items = [f" {universe}:" + (f"s{sent.k % 256}" if sent else "-") for universe, sent in offers]
    return (f"ending {ending}" if ending else "live") + "".join(items)
