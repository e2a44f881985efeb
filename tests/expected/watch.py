"""What `watch` prints of its lines (FORMATS.md, "The lines of watch")."""

import re
from typing import NamedTuple

from .receiver import LOST, SOURCES, TERMINATED, Data, Receiver, parse
from .words import words_of

MOST_BYTES, MOST_LINES = 3072, 4_000_000_000
SECOND, TENTH = 1000, 100
MOST_COUNTED = 2**32 - 1
MOMENT = re.compile(rb"[0-9]{1,15}")
HEX = re.compile(rb"(?:[0-9A-Fa-f]{2})+")
FAULTS = "Short Preamble Identifier RootVector Length FramingVector Priority Universe Dmp Count"
REASONS = [
    "Backwards",
    *(f"Unreadable {fault}" for fault in FAULTS.split()),
    *"OtherUniverse Preview AltStart OutOfSequence SourcesFull".split(),
    *"PerAddressPriority Discovery Synchronization".split(),
]


class Refused(Exception):
    """The line of this number ends the run."""


class Source(NamedTuple):
    """A live source, by the packet that was accepted last."""

    cid: bytes
    name: bytes
    priority: int
    number: int
    moment: int

    def words(self):
        name = "".join(chr(byte) if 32 <= byte <= 126 else "?" for byte in self.name)
        cid = self.cid.hex()
        parted = "-".join((cid[:8], cid[8:12], cid[12:16], cid[16:20], cid[20:]))
        return f"{name} {parted}"


def extended_kind(datagram):
    """What an extended packet is, or None."""
    if (
        len(datagram) < 44
        or datagram[4:16] != b"ASC-E1.17\0\0\0"
        or datagram[18:22] != bytes([0, 0, 0, 8])
    ):
        return None
    return {2: "Discovery", 1: "Synchronization"}.get(int.from_bytes(datagram[40:44], "big"))


class Counts:
    """What was ignored on a universe since it was printed last."""

    def __init__(self):
        self.of = dict.fromkeys(REASONS, 0)

    def add(self, reason):
        self.of[reason] = min(self.of[reason] + 1, MOST_COUNTED)

    def lines(self):
        told = [f"ignored {reason} {count}" for reason, count in self.of.items() if count]
        self.of = dict.fromkeys(REASONS, 0)
        return told


def leaders(sources):
    top = max((source.priority for source in sources), default=None)
    return [source.cid for source in sources if source.priority == top]


def changes(word, before, after):
    """The lines of two states of the live sources."""
    known = {source.cid: source for source in before}
    left = [source for source in before if source.cid not in [other.cid for other in after]]
    lines = [f"{word} {source.words()}" for source in left]
    for source in after:
        old = known.get(source.cid)
        if not old or (old.name, old.priority) != (source.name, source.priority):
            lines.append(f"source {source.words()} priority {source.priority}")
        between = (source.number - old.number) % 256 - 1 if old else 0
        if between > 0:
            lines.append(f"lost {source.words()} {between}")
        if source.cid in leaders(after) and source.cid not in leaders(before):
            lines.append(f"leads {source.words()}")
    return lines


class Universe:
    def __init__(self, number):
        self.number = number
        self.receiver = Receiver(number)
        self.counts = Counts()
        self.sources = []
        self.slots = "slots"

    def wait(self, moment):
        before = self.sources
        self.sources = [source for source in before if moment - source.moment < LOST]
        return changes("gone", before, self.sources)

    def take(self, moment, datagram, data):
        reply = self.receiver.take(moment, datagram)
        if not reply.startswith("taken"):
            reason = reply.removeprefix("ignored ")
            per_address = reason == "AltStart" and data.start == 0xDD
            self.counts.add("PerAddressPriority" if per_address else reason)
            return []
        before = self.sources
        others = [source for source in before if source.cid != data.cid]
        if data.options & TERMINATED:
            self.sources = others
        else:
            name = datagram[44:108].split(b"\0")[0]
            own = Source(data.cid, name, data.priority, data.sequence, moment)
            self.sources = [own, *others]
        assert len(self.sources) <= SOURCES
        return changes("ended", before, self.sources)

    def look(self, moment):
        slots = self.receiver.slots_line(moment)
        changed = slots != self.slots
        self.slots = slots
        return [slots] if changed else []


class Watch:
    """The universes, line by line: each answers with what is printed."""

    def __init__(self, numbers):
        self.moment = 0
        self.strays = Counts()
        self.universes = [Universe(number) for number in numbers]

    def lines_at(self, moment, datagram, tells, looks):
        data = parse(datagram) if datagram else None
        lines = [f"{moment} 0 {line}" for line in (self.strays.lines() if tells else [])]
        to = data.universe if isinstance(data, Data) else 0
        if datagram and to not in [universe.number for universe in self.universes]:
            self.strays.add(
                extended_kind(datagram) or ("OtherUniverse" if to else f"Unreadable {data}")
            )
        for universe in self.universes:
            told = universe.counts.lines() if tells else []
            told += universe.wait(moment)
            if universe.number == to:
                told += universe.take(moment, datagram, data)
            if looks:
                told += universe.look(moment)
            lines += [f"{moment} {universe.number} {line}" for line in told]
        return lines

    def take(self, moment, datagram):
        if moment < self.moment:
            self.strays.add("Backwards")
            return []
        before, self.moment = self.moment, moment
        tells, looks = (before // part != moment // part for part in (SECOND, TENTH))
        return self.lines_at(moment, datagram, tells, looks)

    def close(self):
        return self.lines_at(self.moment, b"", True, True)


def read(line, number):
    """The moment and the datagram of a line, where it has words."""
    if len(line) > MOST_BYTES or number > MOST_LINES:
        raise Refused(number)
    words = words_of(line)
    if not words:
        return None
    if not MOMENT.fullmatch(words[0]) or len(words) > 2:
        raise Refused(number)
    if words[1:] and not HEX.fullmatch(words[1]):
        raise Refused(number)
    return int(words[0]), bytes.fromhex(words[1].decode()) if words[1:] else b""


def watch(text, numbers):
    """The lines that are printed of an input, and the number of the line that is refused, or
    None."""
    universes = Watch(numbers)
    lines = text.split(b"\n")
    told = []
    for number, line in enumerate(lines if lines[-1] else lines[:-1], 1):
        try:
            what = read(line, number)
        except Refused:
            return told, number
        if what:
            told += universes.take(*what)
    return told + universes.close(), None
