"""What a storm did, as text and as data."""

from collections.abc import Sequence

from cueplayer_tools.storm.causes import newest_packets, packets_behind, worst
from cueplayer_tools.storm.network import Network
from cueplayer_tools.storm.verdict import LENGTHS, Fault, Storm, Stretch, Verdict

MOST_WORST = 10
Row = Sequence[str]


def table(head: Row, rows: Sequence[Row]) -> list[str]:
    """Columns, each as wide as its widest cell."""
    wide = [max(map(len, column)) for column in zip(head, *rows)]
    return ["  ".join(cell.rjust(size) for cell, size in zip(row, wide)) for row in (head, *rows)]


def stamp(moment: int) -> str:
    """A moment to the millisecond: 1:02.345."""
    minutes, rest = divmod(moment, 60_000)
    hours, minutes = divmod(minutes, 60)
    front = f"{hours}:{minutes:02}" if hours else f"{minutes}"
    return f"{front}:{rest // 1000:02}.{rest % 1000:03}"


def duration(time: int) -> str:
    """A length of time: 75 ms, 12.3 s, 1:02:03."""
    if time < 10_000:
        return f"{time} ms"
    return f"{time / 1000:.1f} s" if time < 600_000 else stamp(time).partition(".")[0]


def share(part: int, whole: int) -> str:
    return f"{100 * part / whole:.3f} %" if whole else "-"


def percent(value: float) -> str:
    return f"{100 * value:g} %"


def network_words(network: Network, loss: str | None = None) -> str:
    """What the network does, in words, beside how much it loses."""
    words = [loss or f"loss {percent(network.loss)}"]
    if network.burst:
        words[0] += f" in bursts of {network.burst} ms"
    if network.repeat:
        words.append(f"repeat {percent(network.repeat)}")
    if network.most_delay:
        delay = sorted({network.least_delay, network.most_delay})
        words.append(f"delay {'-'.join(map(str, delay))} ms")
    if network.reorder:
        words.append(f"{percent(network.reorder)} held back {network.held_back} ms")
    for each in network.outages:
        at = each.name() if each.console is None else f"cable {each.console}"
        at = at if each.universe is None else f"node {each.universe}"
        words.append(f"{at} out {stamp(each.first)} to {stamp(each.until)}")
    return ", ".join([*words, f"seed {network.seed}"])


def _consoles(storm: Storm) -> list[str]:
    """What became of the packets of each console."""
    rows = []
    for console, each in enumerate(storm.consoles):
        traffic = [cable for (owner, _), cable in storm.traffic.items() if owner == console]
        counts = (
            sum(len(cable.sent) for cable in traffic),
            sum(len(cable.lost) for cable in traffic),
            sum(cable.repeated for cable in traffic),
            sum(cable.overtakes() for cable in traffic),
        )
        name = [f"{console}", f"{each.priority}", f"{each.late} ms"]
        rows.append([*name, *(f"{count}" for count in counts)])
    head = ("console", "priority", "late", "packets", "lost", "twice", "overtaken")
    return table(head, rows)


def _universes(storm: Storm) -> list[str]:
    rows = [
        [
            f"{each.universe}", duration(each.wrong), share(each.wrong, each.whole),
            duration(each.longest), f"{each.off}", duration(each.dark),
            duration(each.wrong - each.dark),
        ]
        for each in storm.verdicts
    ]  # fmt: skip
    return table(("universe", "wrong", "share", "longest", "most off", "dark", "held"), rows)


def _stretches(storm: Storm) -> list[str]:
    rows = [[f"{each.universe}", *map(str, each.counts())] for each in storm.verdicts]
    return table(("wrong for at least", *map(duration, LENGTHS)), rows)


def _worst(storm: Storm) -> list[str]:
    lines = []
    for place, each in enumerate(worst(storm, MOST_WORST), 1):
        how = "held" if not each.dark else "held and dark"
        how = "dark" if each.dark == each.length else how
        at = f"{stamp(each.first)} universe {each.universe} {how} for {duration(each.length)}"
        levels = f"slot {each.slot} at {each.level}, meant {each.meant}"
        lines.append(f"{place:3}. {at}: {levels}")
        lines += [f"     {line}" for line in packets_behind(storm, each)]
    return lines


def _premises(storm: Storm) -> list[str]:
    rows = []
    for each in storm.verdicts:
        broken = sum(fault.until - fault.first for fault in each.faults)
        times = (each.whole, each.in_window, each.is_fresh, each.held, broken)
        rows.append([f"{each.universe}", *map(duration, times)])
    head = ("universe", "time", "in the window", "fresh", "promised", "promise broken")
    return table(head, rows)


def fault_words(storm: Storm, fault: Fault) -> list[str]:
    """A fault of the program: where, what was shown, and the packets."""
    stretch = Stretch(fault.universe, fault.first, fault.until)
    at = f"{stamp(fault.first)} universe {fault.universe} for {duration(stretch.length)}"
    levels = f"slot {fault.slot} at {fault.level}, promised {fault.promised}"
    packets = newest_packets(storm, fault.universe, fault.first) + packets_behind(storm, stretch)
    return [f"FAULT {at}: {levels}", *(f"     {line}" for line in packets)]


def report(storm: Storm, name: str) -> str:
    """All that is told of a storm."""
    whole = storm.last - storm.first
    lines = [f"{name}, {stamp(whole)}: {network_words(storm.network)}", ""]
    lines += [*_consoles(storm), "", *_universes(storm), "", *_stretches(storm), ""]
    if any(each.stretches for each in storm.verdicts):
        lines += ["the worst moments", *_worst(storm), ""]
    lines += _premises(storm)
    return "\n".join(lines) + "\n"


def _stretch_data(storm: Storm, each: Stretch) -> dict[str, object]:
    return {
        "universe": each.universe, "from": each.first, "until": each.until, "off": each.off,
        "slot": each.slot, "level": each.level, "meant": each.meant, "dark": each.dark,
        "packets": packets_behind(storm, each),
    }  # fmt: skip


def _universe_data(each: Verdict) -> dict[str, object]:
    return {
        "universe": each.universe, "time": each.whole, "wrong": each.wrong, "dark": each.dark,
        "held": each.wrong - each.dark, "longest": each.longest, "off": each.off,
        "at_least": dict(zip(map(str, LENGTHS), each.counts())), "in_window": each.in_window,
        "fresh": each.is_fresh, "promised": each.held,
    }  # fmt: skip


def data(storm: Storm) -> dict[str, object]:
    """The same for programs. Times are in milliseconds."""
    return {
        "network": network_words(storm.network),
        "universes": [_universe_data(each) for each in storm.verdicts],
        "worst": [_stretch_data(storm, each) for each in worst(storm, MOST_WORST)],
        "faults": [vars(fault) for fault in storm.faults],
    }
