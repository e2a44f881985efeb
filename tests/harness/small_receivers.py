"""Small receivers of E1.31: one that keeps to the rules, and many that break one each."""

from dataclasses import dataclass

PREVIEW, TERMINATED = 0x80, 0x40


def two(data, offset):
    return int.from_bytes(data[offset : offset + 2], "big")


@dataclass
class Heard:
    """What is kept of a source."""

    moment: int
    number: int
    priority: int
    slots: bytes
    is_over: bool


class Small:
    """Keeps to the rules. What another breaks is one of these calls."""

    # The rule that it breaks, and the cases that it is caught by: all of the rule where none are
    # named.
    rule: str | None = None
    caught: tuple[str, ...] = ()
    # Cases of other rules that it cannot but break too.
    also: dict[str, set[str]] = {}
    loss = 2500

    def __init__(self, universe):
        self.universe = universe
        self.sources = {}
        # What the receivers of a node's universes share.
        self.shared = {}

    def take(self, moment, data, sender):
        if not self.is_packet(data) or not self.is_here(data) or not self.is_known(data):
            return
        if self.is_preview(data) or not (self.has_levels(data) or self.ends(data)):
            return
        self.forget(moment)
        key = self.key(data, sender)
        last = self.sources.get(key)
        if self.is_late(last, data[111]):
            return
        slots = self.slots_in(data, last)
        self.sources[key] = Heard(
            moment, data[111], self.priority(data, last), slots, self.ends(data)
        )

    def is_packet(self, data):
        return (
            len(data) >= 126
            and self.has_fields(data)
            and 126 <= 16 + (two(data, 16) & 0xFFF) <= len(data)
            and two(data, 123) == (two(data, 115) & 0xFFF) - 10
        )

    def has_fields(self, data):
        return (
            data[0:2] == b"\0\x10"
            and data[4:16] == b"ASC-E1.17\0\0\0"
            and data[18:22] == b"\0\0\0\4"
            and data[40:44] == b"\0\0\0\2"
            and data[117:123] == b"\2\xa1\0\0\0\1"
        )

    def is_here(self, data):
        return two(data, 113) == self.universe

    def is_known(self, data):
        return data[108] <= 200

    def is_preview(self, data):
        return data[112] & PREVIEW

    def has_levels(self, data):
        return data[125] == 0

    def ends(self, data):
        return bool(data[112] & TERMINATED)

    def forget(self, moment):
        there = self.sources.items()
        self.sources = {key: one for key, one in there if moment - one.moment < self.loss}

    def key(self, data, sender):
        return data[22:38]

    def is_late(self, last, number):
        return last is not None and (last.number - number) % 256 < 20

    def priority(self, data, last):
        return data[108]

    def slots_in(self, data, last):
        return data[126 : 126 + two(data, 123) - 1].ljust(512, b"\0")

    def look(self, moment):
        self.forget(moment)
        there = [one for one in self.sources.values() if not one.is_over]
        first = max((one.priority for one in there), default=0)
        lit = [one.slots for one in there if one.priority == first]
        shown = bytes(map(max, bytes(512), bytes(512), *lit))
        return {slot: level for slot, level in enumerate(shown, 1) if level}


class TakesRepeats(Small):
    rule, caught = "numbering", ("30 then 30",)

    def is_late(self, last, number):
        return super().is_late(last, number) and last.number != number


class ForgetsTheWindow(Small):
    rule, caught = "numbering", ("30 then 11",)

    def is_late(self, last, number):
        return last is not None and (last.number - number) % 256 < 19


class TakesOlder(Small):
    rule, caught = "numbering", ("30 then 29", "30 then 11")

    def is_late(self, last, number):
        return super().is_late(last, number) and (last.number == number or number > last.number)


class WindowTooWide(Small):
    rule = "numbering window"

    def is_late(self, last, number):
        return last is not None and (last.number - number) % 256 < 128


class DropsNumberZero(Small):
    rule, caught = "numbering wrap", ("0 after 255",)

    def take(self, moment, data, sender):
        if len(data) < 126 or data[111] != 0:
            super().take(moment, data, sender)

    def is_late(self, last, number):
        # As one that never saw 0: 1 after 255 is a step back.
        return (
            number == 1
            and last is not None
            and last.number == 255
            or super().is_late(last, number)
        )


class ComparesPlainBytes(Small):
    rule, caught = "numbering wrap", ("5 then 250",)

    def is_late(self, last, number):
        return last is not None and 0 <= last.number - number < 20


class OneNumberForAll(Small):
    rule = "numbering by source"
    newest = None

    def is_late(self, last, number):
        if self.newest is not None and (self.newest - number) % 256 < 20:
            return bool(self.sources)
        self.newest = number
        return False


class LosesTooEarly(Small):
    rule, loss = "source stays", 1400


class NeverLoses(Small):
    rule, loss = "source lost", 1 << 40
    also = {"universes of a source": {"one lost"}}


class IgnoresTheEnd(Small):
    rule, caught = "termination", ("the other shows",)

    def take(self, moment, data, sender):
        if len(data) < 126 or not self.ends(data):
            super().take(moment, data, sender)


class ShowsTheEnd(Small):
    """Its last slots show until the source is lost."""

    rule = "termination"

    def take(self, moment, data, sender):
        super().take(moment, data, sender)
        for one in self.sources.values():
            one.is_over = False


class ShowsPreviews(Small):
    rule = "preview"

    def is_preview(self, data):
        return False


class ShowsPreviewsOfAKnownSource(Small):
    rule, caught = "preview", ("between",)

    def is_preview(self, data):
        return super().is_preview(data) and data[22:38] not in self.sources


class RefusesReservedBits(Small):
    rule = "reserved options"

    def is_known(self, data):
        return super().is_known(data) and not data[112] & 0x1F


class RefusesForcedBit(Small):
    rule = "forced synchronization"

    def is_known(self, data):
        return super().is_known(data) and not data[112] & 0x20


class DarkAtOtherPackets(Small):
    rule = "other packets"

    def take(self, moment, data, sender):
        if data[18:22] == b"\0\0\0\x08":
            self.sources.clear()
        super().take(moment, data, sender)


class MergesAllPriorities(Small):
    rule, caught = "priority", ("higher", "lower and later", "falls and rises", "200")

    def priority(self, data, last):
        return 0


class KeepsFirstPriority(Small):
    rule, caught = "priority", ("falls and rises",)

    def priority(self, data, last):
        return last.priority if last else data[108]


class RefusesPriorityZero(Small):
    rule, caught = "priority", ("0",)

    def is_known(self, data):
        return super().is_known(data) and data[108] > 0


class RefusesPriority200(Small):
    rule, caught = "priority", ("200",)

    def is_known(self, data):
        return data[108] < 200


class KnowsSourcesByPort(Small):
    rule, caught = "CID", ("another port",)

    def key(self, data, sender):
        return data[22:38], sender[1]


class KnowsSourcesByAddress(Small):
    """As a receiver that takes a second network card of a console for a second console."""

    rule, caught = "CID", ("another address",)

    def key(self, data, sender):
        return data[22:38], sender[0]


class KnowsSourcesByName(Small):
    rule = "source name"

    def key(self, data, sender):
        return data[22:38], data[44:108]


class RefusesOtherNames(Small):
    rule, caught = "source name", ("any bytes",)

    def is_known(self, data):
        return super().is_known(data) and data[44:108].isascii() and data[44] != 0


class ComparesOneByteOfTheUniverse(Small):
    rule, caught = "universe", ("another high byte",)

    def is_here(self, data):
        return data[114] == self.universe % 256


class ShowsAnyUniverse(Small):
    rule = "universe"
    also = {
        "universes of a source": {
            *("one that is not shown", "5 behind", "in turn"),
            *("priorities", "one ended", "one lost"),
        }
    }

    def is_here(self, data):
        return True


class RefusesFewSlots(Small):
    rule, caught = "number of slots", ("24 slots",)

    def is_known(self, data):
        return super().is_known(data) and two(data, 123) not in range(25, 500)


class ShowsStartCodes(Small):
    rule = "START code"

    def has_levels(self, data):
        return True


class ShowsPerAddressPriority(Small):
    rule, caught = "START code", ("dd",)

    def has_levels(self, data):
        return data[125] in (0, 0xDD)


class StopsAtCutDatagrams(Small):
    rule = "cut datagrams"
    has_stopped = False

    def take(self, moment, data, sender):
        is_extended = data[18:22] == b"\0\0\0\x08"
        self.has_stopped = self.has_stopped or len(data) < 126 and not is_extended
        if not self.has_stopped:
            super().take(moment, data, sender)


def blind_to(rule, first, last):
    """A receiver that does not look at these bytes."""
    right = bytes.fromhex("00100000") + b"ASC-E1.17\0\0\0" + bytes(2) + bytes.fromhex("00000004")
    right = right.ljust(40, b"\0") + bytes.fromhex("00000002")
    right = right.ljust(117, b"\0") + bytes.fromhex("02a100000001")

    class Overlooks(Small):
        def has_fields(self, data):
            whole = data[:first] + right[first:last] + data[last:]
            return super().has_fields(whole)

    Overlooks.rule = rule
    Overlooks.__name__ = "Overlooks" + rule.title().replace(" ", "")
    return Overlooks


OVERLOOKING = tuple(
    blind_to(*row)
    for row in (
        ("preamble size", 0, 2),
        ("packet identifier", 4, 16),
        ("root vector", 18, 22),
        ("framing vector", 40, 44),
        ("DMP vector", 117, 118),
        ("address type", 118, 119),
        ("first address", 119, 121),
        ("address increment", 121, 123),
    )
)
BREAKING = (
    TakesRepeats,
    ForgetsTheWindow,
    TakesOlder,
    WindowTooWide,
    DropsNumberZero,
    ComparesPlainBytes,
    OneNumberForAll,
    LosesTooEarly,
    NeverLoses,
    IgnoresTheEnd,
    ShowsTheEnd,
    ShowsPreviews,
    ShowsPreviewsOfAKnownSource,
    RefusesReservedBits,
    RefusesForcedBit,
    DarkAtOtherPackets,
    MergesAllPriorities,
    KeepsFirstPriority,
    RefusesPriorityZero,
    RefusesPriority200,
    KnowsSourcesByPort,
    KnowsSourcesByName,
    RefusesOtherNames,
    ComparesOneByteOfTheUniverse,
    ShowsAnyUniverse,
    RefusesFewSlots,
    ShowsStartCodes,
    ShowsPerAddressPriority,
    StopsAtCutDatagrams,
    KnowsSourcesByAddress,
    *OVERLOOKING,
)
