"""Datagrams of a source of E1.31 that keeps to the rules, and of many that break one each."""

from typing import NamedTuple

from program import CID, packet

TICK, KEPT_ALIVE = 0.025, 0.8
MOVE, REST, MOVES = 1.0, 3.0, 3
ENDING = 0x40
SENDER = ("10.0.0.5", 5568)


class Heard(NamedTuple):
    """A datagram, when it came, from where, and to which address."""

    moment: float
    data: bytes
    sender: tuple
    to: str


def levels():
    """When each packet is sent, its options and its level: moves, four packets of each last level,
    then one each 0.8 s, and three that end the stream."""
    found, moment, level = [], 0.0, 0
    for _ in range(MOVES):
        until = moment + MOVE
        while moment < until:
            level += 1
            found.append((moment, 0, level))
            moment += TICK
        for _ in range(3):
            found.append((moment, 0, level))
            moment += TICK
        until = moment + REST
        while moment < until:
            moment += KEPT_ALIVE
            found.append((moment, 0, level))
        moment += TICK
    return found + [(moment + n * TICK, ENDING, 0) for n in range(3)]


def datagrams(sent=None, universe=1, to="239.255.0.1", first=0, **fields):
    """The datagrams of such packets, numbered from the first on."""
    return [
        Heard(
            moment,
            packet(universe, {1: level % 256}, (first + n) % 256, options, **fields),
            SENDER,
            to,
        )
        for n, (moment, options, level) in enumerate(sent or levels())
    ]


def at(datagrams, places, offset, value):
    """The same, with other bytes at an offset of some."""
    found = list(datagrams)
    for place in places:
        one = found[place]
        data = one.data[:offset] + value + one.data[offset + len(value) :]
        found[place] = Heard(one.moment, data, one.sender, one.to)
    return found


def both():
    """Two universes of one source, between each other."""
    found = datagrams() + datagrams(universe=2, to="239.255.0.2", first=77)
    return sorted(found, key=lambda one: one.moment)


def without(keeps):
    """Packets that are kept, numbered without gaps."""
    sent = levels()
    return datagrams([one for place, one in enumerate(sent) if keeps(place, sent)])


def is_no_repeat(place, sent):
    """Whether it is a change, ends the stream, or comes after a pause."""
    moment, options, level = sent[place]
    last, _, before = sent[place - 1]
    return place == 0 or options or level != before or moment - last > 0.5


def is_not_kept_alive(place, sent):
    """Whether less than half a second is between it and the one before."""
    return place == 0 or sent[place][0] - sent[place - 1][0] < 0.5


def fast():
    """A move at 62 packets a second."""
    moving = [(n * 0.016, 0, n) for n in range(1, 125)]
    last = moving[-1]
    rest = [(last[0] + n * TICK, 0, last[2]) for n in range(1, 4)]
    return datagrams(moving + rest + [(rest[-1][0] + n * TICK, ENDING, 0) for n in range(1, 4)])


def source_name(name):
    """A source of this name, in its 64 bytes."""
    return at(datagrams(), range(len(levels())), 44, name.ljust(64, b"\0"))


ALL = range(len(levels()))
# The rule that is broken, and by what.
BREAKING = (
    *(
        ("fields", at(datagrams(), ALL, offset, value))
        for offset, value in (
            (1, b"\x11"), (3, b"\4"), (12, b"8"), (21, b"\5"), (43, b"\3"),
            (117, b"\3"), (118, b"\xa2"), (120, b"\1"), (122, b"\2"),
        )
    ),
    *(
        ("lengths", at(datagrams(), (5,), offset, bytes.fromhex(value)))
        for offset, value in (
            (16, "626e"), (16, "726f"), (38, "7257"), (115, "720c"), (123, "0200"), (123, "0202"),
        )
    ),
    ("lengths", [*datagrams(), Heard(0.5, datagrams()[0].data[:100], SENDER, "239.255.0.1")]),
    ("CID", at(datagrams(), ALL, 22, bytes(16))),
    ("CID", datagrams() + datagrams(universe=2, to="239.255.0.2", cid=CID[:-1] + "2")),
    ("source name", source_name(b"x" * 64)),
    ("source name", source_name(b"B\xfchne")),
    ("source name", at(datagrams(), (7,), 44, b"another")),
    ("priority", at(datagrams(), (3,), 108, b"\xc9")),
    ("synchronized by", at(datagrams(), (3,), 109, b"\xfa\x00")),
    ("numbering", datagrams()[:5] + datagrams()[6:]),
    ("numbering", at(datagrams(), (9,), 111, bytes([8]))),
    ("reserved options", at(datagrams(), (3,), 112, b"\1")),
    ("universe", datagrams(universe=64000, to="10.0.0.9")),
    ("universe", datagrams(to="239.255.1.0")),
    ("repeats", without(is_no_repeat)),
    ("keep-alive", without(is_not_kept_alive)),
    ("rate", fast()),
    ("termination", datagrams()[:-1]),
    ("termination", datagrams()[:-3]),
)
