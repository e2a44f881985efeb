"""Rules of a source: what its packets say, and when it sends them."""

from collections.abc import Callable, Iterator
from dataclasses import dataclass

from cueplayer_tools.conform.capture import group_of
from cueplayer_tools.conform.packets import IDENTIFIER, PREVIEW
from cueplayer_tools.conform.report import Finding, RuleFound
from cueplayer_tools.conform.streams import (
    DISCOVERY,
    SYNCHRONIZATION,
    Listening,
    Stream,
    is_extended,
    two,
)
from cueplayer_tools.conform.verdicts import BROKEN, KEPT, NOT_TRIED, SEEN
from cueplayer_tools.line_protocol import printable

# In seconds. What listens is late by a little.
KEEP_ALIVE, SLACK = 1.0, 0.05
LOST = 2.5
PAUSE = 0.25
REPEATS = 3
TIMES = ("never", "once", "twice")
# Of E1.11, in microseconds: a break and the mark after it, a slot, and the shortest packet.
BREAK, SLOT, SHORTEST = 104, 44, 1204
# Packets that a busy machine moves from one second into the next.
MOVED = 4
# Behind an end: so many packets.
ENDINGS = 3
RESERVED = 0x1F
# Offsets of fields that are always the same, and their bytes.
CONSTANT = (
    (0, bytes.fromhex("00100000"), "preamble and post-amble size"),
    (4, IDENTIFIER, "packet identifier"),
    (18, bytes.fromhex("00000004"), "root vector"),
    (40, bytes.fromhex("00000002"), "framing vector"),
    (117, bytes.fromhex("02"), "DMP vector"),
    (118, bytes.fromhex("a1"), "address and data type"),
    (119, bytes.fromhex("0000"), "first property address"),
    (121, bytes.fromhex("0001"), "address increment"),
)
DISCOVERY_INTERVAL = 10.0


@dataclass(frozen=True)
class SourceRule:
    """A rule, and what finds faults: each text that it gives is one. What `tells` gives is no
    fault: the standard leaves it open."""

    name: str
    clause: str
    asks: str
    faults: Callable[[Listening], Iterator[str]] | None = None
    tells: Callable[[Listening], str] | None = None


def _fields(heard: Listening) -> Iterator[str]:
    for packet in heard.packets:
        for offset, right, name in CONSTANT:
            found = packet.data[offset : offset + len(right)]
            if found != right:
                yield f"{packet.where}: {name} {found.hex()}; right is {right.hex()}"


def _lengths(heard: Listening) -> Iterator[str]:
    for other in heard.others:
        if not is_extended(other.data):
            yield f"{len(other.data)} bytes are no packet"
    for packet in heard.packets:
        size = len(packet.data)
        for offset, name in ((16, "root"), (38, "framing"), (115, "DMP")):
            found, right = two(packet.data, offset), 0x7000 | (size - offset)
            if found != right:
                yield f"{packet.where}: {name} length {found:04x}; right is {right:04x}"
        if packet.count != size - 125 or not 1 <= packet.count <= 513:
            yield f"{packet.where}: property value count {packet.count}; right is {size - 125}"


def _cids(heard: Listening) -> Iterator[str]:
    cids = {packet.cid for packet in heard.packets}
    if bytes(16) in cids:
        yield "a CID of zeros"
    if len(cids) > 1:
        yield f"{len(cids)} CIDs: one source has one"


def _names(heard: Listening) -> Iterator[str]:
    names = {packet.name for packet in heard.packets}
    for name in sorted(names):
        text, zero, _ = name.partition(b"\0")
        if not zero:
            yield "a source name of 64 bytes without a zero byte at its end"
        try:
            text.decode("utf-8")
        except UnicodeDecodeError:
            yield f"the source name {printable(text)} is no UTF-8"
    if len(names) > 1:
        yield f"{len(names)} source names: one source has one"


def _priorities(heard: Listening) -> Iterator[str]:
    for packet in heard.packets:
        if packet.priority > 200:
            yield f"{packet.where}: priority {packet.priority}; the greatest is 200"


def _addresses(heard: Listening) -> Iterator[str]:
    """Synchronization addresses are universes."""
    for packet in heard.packets:
        if packet.synchronization > 63_999:
            yield f"{packet.where}: synchronization address {packet.synchronization}"


def _numbers(heard: Listening) -> Iterator[str]:
    for stream in heard.universes:
        for last, packet in stream.pairs():
            right = (last.number + 1) % 256
            if packet.number != right:
                yield f"universe {stream.universe}: number {packet.number} after {last.number}"


def _options(heard: Listening) -> Iterator[str]:
    for packet in heard.packets:
        if packet.options & RESERVED:
            yield f"{packet.where}: options {packet.options:02x}; the reserved bits are 0"


def _universes(heard: Listening) -> Iterator[str]:
    for packet in heard.packets:
        if not 1 <= packet.universe <= 63_999:
            yield f"universe {packet.universe}; there are 1 to 63999"
        group, to = group_of(packet.universe), packet.heard.to
        if to.startswith("239.") and to != group:
            yield f"universe {packet.universe} is sent to {to}; its group is {group}"


def _repeats(heard: Listening) -> Iterator[str]:
    """What was begun before the listening is not judged."""
    for stream in heard.streams:
        count, first = 0, None
        for last, packet in stream.pairs():
            is_same = packet.slots == last.slots and not packet.is_terminated
            paused = packet.moment - last.moment >= PAUSE and not last.is_terminated
            if paused and first and count < REPEATS:
                yield f"{first.where}: sent {TIMES[count]} before a pause"
            if not is_same:
                count, first = 0, packet
            if paused and is_same:
                first = None
            count += 1


def _alive(heard: Listening) -> Iterator[str]:
    for stream in heard.universes:
        for last, packet in stream.pairs():
            apart = packet.moment - last.moment
            if apart > KEEP_ALIVE + SLACK and not last.is_terminated:
                yield f"{packet.where}: {apart:.2f} s after the packet before"


def _fastest(stream: Stream) -> int:
    """How many packets with so many slots E1.11 has room for in a second."""
    slots = max(packet.count for packet in stream.packets)
    return 1_000_000 // max(SHORTEST, BREAK + SLOT * slots)


def _rate(heard: Listening) -> Iterator[str]:
    for stream in heard.universes:
        moments = [packet.moment for packet in stream.packets]
        first, most = 0, 0
        for last, moment in enumerate(moments):
            while moment - moments[first] >= 1.0:
                first += 1
            most = max(most, last - first + 1)
        if most > _fastest(stream) + MOVED:
            right = f"E1.11 has room for {_fastest(stream)}"
            yield f"universe {stream.universe}: {most} packets in a second; {right}"


def _endings(heard: Listening) -> Iterator[str]:
    for stream in heard.universes:
        count = 0
        for packet in stream.packets:
            if not packet.is_terminated and 0 < count < ENDINGS:
                yield f"universe {stream.universe}: ended by {count} packets; right is {ENDINGS}"
            count = count + 1 if packet.is_terminated else 0
        if 0 < count < ENDINGS:
            yield f"universe {stream.universe}: ended by {count} packets; right is {ENDINGS}"
        if count == 0 and heard.ended - stream.packets[-1].moment > LOST:
            yield f"universe {stream.universe}: silent without an end"


def _ends(heard: Listening) -> str:
    over = [stream for stream in heard.universes if stream.packets[-1].is_terminated]
    return "" if over else "no stream ended meanwhile"


def _start_codes(heard: Listening) -> str:
    codes = sorted({packet.start_code for packet in heard.packets} - {0})
    if not codes:
        return "levels alone"
    told = ", ".join(f"{code:02x}" for code in codes)
    return f"levels, and {told}" + (" (dd: per-address priority)" if 0xDD in codes else "")


def _previews(heard: Listening) -> str:
    return "some" if any(packet.options & PREVIEW for packet in heard.packets) else "none"


def _synchronization(heard: Listening) -> str:
    if heard.extended_packets(SYNCHRONIZATION):
        return "sends synchronization packets"
    used = any(packet.synchronization for packet in heard.packets)
    return "data waits for synchronization, and no such packet came" if used else "not used"


def _discovery(heard: Listening) -> str:
    if heard.extended_packets(DISCOVERY):
        return "sends discovery packets"
    if heard.ended - heard.begun < DISCOVERY_INTERVAL:
        return f"none within {heard.ended - heard.begun:.0f} s; they come each 10 s"
    return "sends none"


def _sent_priorities(heard: Listening) -> str:
    found = sorted({packet.priority for packet in heard.packets})
    return ", ".join(map(str, found))


RULES = (
    SourceRule("fields", "4.1", "The fields that are always the same are right", _fields),
    SourceRule("lengths", "5.4, 6.1, 7.1", "Flags, lengths and counts fit the packet", _lengths),
    SourceRule("CID", "5.6", "A source has one CID", _cids),
    SourceRule("source name", "6.2.2", "The name is UTF-8 that ends with a zero byte", _names),
    SourceRule("priority", "6.2.3", "Priorities are 0 to 200", _priorities),
    SourceRule(
        "synchronized by", "6.2.4", "The synchronization address is 0 or a universe", _addresses
    ),
    SourceRule("numbering", "6.2.5", "The numbers of a universe rise by one", _numbers),
    SourceRule("reserved options", "6.2.6", "The reserved bits of the options are 0", _options),
    SourceRule("universe", "6.2.7, 9.3", "Each universe goes to its group", _universes),
    SourceRule("repeats", "6.6.2", "Levels are sent three times before a pause", _repeats),
    SourceRule("keep-alive", "6.6.2", "A live stream never pauses for 1 s", _alive),
    SourceRule("rate", "6.6.1", "A universe has no more packets a second than E1.11 allows", _rate),
    SourceRule("termination", "6.2.6", "Three packets end a stream", _endings, _ends),
    SourceRule("priorities sent", "6.2.3", "Which priorities are sent", None, _sent_priorities),
    SourceRule("START codes", "7.7", "Which START codes are sent", None, _start_codes),
    SourceRule("previews", "6.2.6", "Whether previews are sent", None, _previews),
    SourceRule(
        "synchronization", "11", "Whether universes are synchronized", None, _synchronization
    ),
    SourceRule("universe discovery", "4.3, 8", "Whether universes are listed", None, _discovery),
)


def judged_rule(rule: SourceRule, heard: Listening) -> RuleFound:
    """What a rule finds: its first fault, and how many more there are."""
    faults = list(rule.faults(heard)) if rule.faults else []
    told = rule.tells(heard) if rule.tells else ""
    if faults:
        more = f", and {len(faults) - 1} more" if len(faults) > 1 else ""
        found = Finding(rule.name, BROKEN, faults[0] + more)
    elif rule.faults and told:
        found = Finding(rule.name, NOT_TRIED, told)
    else:
        found = Finding(rule.name, SEEN if told else KEPT, told)
    return RuleFound(rule.name, rule.clause, rule.asks, (found,))


def judged_source(heard: Listening) -> tuple[RuleFound, ...]:
    """All rules, of what was heard."""
    return tuple(judged_rule(rule, heard) for rule in RULES)
