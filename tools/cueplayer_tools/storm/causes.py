"""The worst moments of a storm, and the packets that made them."""

from bisect import bisect_left

from cueplayer_tools.storm.network import Traffic
from cueplayer_tools.storm.seen import SILENCE, Delivery
from cueplayer_tools.storm.verdict import Storm, Stretch

MOST_FATES = 6


def worst(storm: Storm, most: int) -> list[Stretch]:
    """The stretches that weigh most, the worst first."""
    stretches = [stretch for verdict in storm.verdicts for stretch in verdict.stretches]
    return sorted(stretches, key=lambda each: (-each.weight, each.first, each.universe))[:most]


def packets_behind(storm: Storm, stretch: Stretch) -> list[str]:
    """The packets that made a stretch: those that did not come in time, and those ignored."""
    since = stretch.first - SILENCE if stretch.dark == stretch.length else stretch.first
    told = []
    for console in range(len(storm.consoles)):
        traffic = storm.traffic[console, stretch.universe]
        words = _fates(traffic, since, stretch.until)
        words += _arrivals(storm, console, stretch, since)
        if len(words) > MOST_FATES:
            words = [*words[:MOST_FATES], f"and {len(words) - MOST_FATES} more"]
        if words:
            told.append(f"console {console}: " + ", ".join(words))
    return told


def _fate(traffic: Traffic, packet: int, arrived: dict[int, int]) -> tuple[str, int]:
    """Why a packet did not come at once, or that it came late, and by how much."""
    if packet in traffic.lost:
        reason = traffic.lost[packet]
        return ("lost" if reason == "loss" else f"lost at the {reason}"), 0
    return "late", arrived[packet] - traffic.sent[packet]


def _fates(traffic: Traffic, since: int, until: int) -> list[str]:
    """What became of the packets that were sent in a time, where they did not come at once."""
    first, last = bisect_left(traffic.sent, since), bisect_left(traffic.sent, until)
    arrived: dict[int, int] = {}
    for moment, packet in traffic.came:
        if first <= packet < last:
            arrived.setdefault(packet, moment)
    runs: list[tuple[str, list[int], list[int]]] = []
    for packet in range(first, last):
        fate, late = _fate(traffic, packet, arrived)
        if fate == "late" and late == 0:
            continue
        if not runs or runs[-1][0] != fate or runs[-1][1][-1] != packet - 1:
            runs.append((fate, [], []))
        runs[-1][1].append(packet)
        runs[-1][2].append(late)
    return [_fate_text(*run) for run in runs]


def _fate_text(fate: str, packets: list[int], late: list[int]) -> str:
    if fate != "late":
        return f"{_range(packets)} {fate}"
    return f"{_range(packets)} {_range(sorted({min(late), max(late)}))} ms late"


def _range(packets: list[int]) -> str:
    return f"{packets[0]}-{packets[-1]}" if len(packets) > 1 else f"{packets[0]}"


def _arrivals(storm: Storm, console: int, stretch: Stretch, since: int) -> list[str]:
    """What a receiver made, in a time, of packets that came behind newer ones."""
    found, newest = [], -1
    for moment, packet in storm.traffic[console, stretch.universe].came:
        if moment >= stretch.until:
            break
        if moment >= since and packet < newest:
            reason = storm.seen.ignored.get(Delivery(moment, console, stretch.universe, packet))
            made = f"ignored {reason}" if reason else "taken"
            found.append(f"{packet} {made} behind {newest}")
        newest = max(newest, packet)
    return found


def newest_packets(storm: Storm, universe: int, moment: int) -> list[str]:
    """The newest packet of each console that had come by a moment, when it was sent, and came."""
    told = []
    for console in range(len(storm.consoles)):
        traffic = storm.traffic[console, universe]
        came = [(packet, -at) for at, packet in traffic.came if at <= moment]
        if came:
            packet, at = max(came)
            sent = traffic.sent[packet]
            told.append(f"console {console}: newest {packet}, sent at {sent}, came at {-at}")
    return told
