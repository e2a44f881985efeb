"""Shows, scripts and lines to time programs on: the same at every run."""

import random
from collections.abc import Callable, Iterable, Iterator
from functools import partial

LONGEST_SHOW = 1_048_576
TICKS_PLAYED = 100_000
UNIVERSES_PLAYED = 8
EVENTS_REHEARSED = 200_000
ORDERS = "ascending", "descending", "random"
CID = "c0ffee00-0000-4000-8000-00000000e131"


def level(rng: random.Random) -> str:
    """A level word, in one of its three spellings."""
    return rng.choice((f"{rng.randint(0, 100)}", "FL", f"H{rng.randint(0, 255):02X}"))


def chan_lines(rng: random.Random, channels: Iterable[int], in_one_line: int = 10) -> Iterator[str]:
    """CHAN lines with a level for each of these channels."""
    pairs = [f"{channel}@{level(rng)}" for channel in channels]
    for first in range(0, len(pairs), in_one_line):
        yield "CHAN " + " ".join(pairs[first : first + in_one_line])


def megabyte_show() -> str:
    """A show of exactly the greatest size: every dimmer patched, and cues of 250 channels."""
    rng = random.Random(1048576)
    lines = ["IDENT 3:0", "CLEAR ALL"]
    for dimmer in range(1, 8193, 2):
        channel = (dimmer - 1) // 2 + 1
        byte = f"H{rng.randint(1, 255):02X}"
        lines.append(f"PATCH 1 {channel}<{dimmer}@FL {channel}<{dimmer + 1}@{byte}")
    for number in range(1, 101):
        lines.append(f"SUB {number}")
        lines += chan_lines(rng, sorted(rng.sample(range(1, 4097), 20)))
    size = sum(len(line) + 1 for line in lines)
    for number in range(1, 2001):
        rates = [f"UP {rng.randint(0, 90)}.5", f"DOWN 1:{rng.randint(10, 59)} 2"]
        cue = [f"CUE {number} ! scene", *rates]
        cue += chan_lines(rng, sorted(rng.sample(range(1, 4097), 250)))
        size += sum(len(line) + 1 for line in cue)
        if size > LONGEST_SHOW:
            break
        lines += cue
    text = "\n".join(lines) + "\n"
    return text + "!".ljust(LONGEST_SHOW - len(text), "-")


def busy_show() -> str:
    """Eight universes, a dimmer for each channel, and two cues that fade all of them for a minute,
    by many differences: so that each tick changes each frame, but for a few as a fade begins."""
    lines = ["IDENT 3:0", "CLEAR ALL"]
    for channel in range(1, 4097):
        lines.append(f"PATCH 1 {channel}<{channel * 2731 % 4096 + 1}@FL")
    for number, least, more in ((1, 1, 1), (2, 255, -1)):
        lines += [f"CUE {number}", "UP 60", "DOWN 60"]
        for channel in range(1, 4097):
            lines.append(f"CHAN {channel}@H{least + more * (channel % 127):02X}")
    return "\n".join(lines) + "\n"


def busy_lines() -> str:
    """Ticks 25 ms apart, and the other cue of `busy_show` once a minute."""
    lines = []
    for tick in range(TICKS_PLAYED):
        minute, within = divmod(25 * tick, 60_000)
        if within == 0:
            lines.append(f"{25 * tick} goto {minute % 2 + 1}")
        lines.append(f"{25 * tick} tick")
    return "\n".join(lines) + "\n"


def rehearsed_show() -> str:
    """Four universes, a dimmer for each channel, and a hundred cues of 200 channels each."""
    rng = random.Random(4)
    lines = ["IDENT 3:0", "CLEAR ALL"]
    for channel in range(1, 2049):
        lines.append(f"PATCH 1 {channel}<{channel * 1367 % 2048 + 1}@FL")
    for number in range(1, 101):
        lines += [f"CUE {number}", f"UP {rng.randint(1, 8)}", f"DOWN {rng.randint(1, 8)}"]
        lines += chan_lines(rng, sorted(rng.sample(range(1, 2049), 200)))
    return "\n".join(lines) + "\n"


def rehearsed_script() -> str:
    """200,000 events of a main console and a backup, each of four universes into four receivers,
    with a tick of both each 25 ms and a cue each five seconds. Of a hundred packets the network
    loses one, brings one twice, and brings one after the next."""
    rng = random.Random(200_000)
    lines = [f"console 1 {150 - 50 * n} {CID[:-1]}{n + 1}" for n in range(2)]
    lines += [f"receiver {universe}" for universe in range(1, 5)]
    events: list[str] = []
    tick = 0
    late: list[tuple[int, int, int, int]] = []
    sent: dict[tuple[int, int], int] = {}
    while len(events) < EVENTS_REHEARSED:
        moment = 25 * tick
        if tick % 200 == 0:
            events += [
                f"{moment} do {console} goto {tick // 200 % 100 + 1}" for console in range(2)
            ]
        moving = tick % 200 < 120
        for console in range(2):
            events.append(f"{moment} tick {console}")
            if not moving:
                continue
            for universe in range(1, 5):
                packet = (universe - 1, console, universe, sent.get((console, universe), 0))
                sent[console, universe] = packet[-1] + 1
                came = [packet] * rng.choices((1, 0, 2), (98, 1, 1))[0]
                if rng.random() < 0.01:
                    late, came = late + came, []
                else:
                    late, came = [], came + late
                events += ["{} deliver {} {} {} {}".format(moment, *each) for each in came]
        if tick % 40 == 0:
            events += [f"{moment} slots {receiver}" for receiver in range(4)]
        tick += 1
    return "\n".join(lines + events[:EVENTS_REHEARSED]) + "\n"


def night_show() -> str:
    """Sixteen universes, two dimmers for each channel but the last, and two cues that fade all of
    these for a minute. Submaster 1 is the last channel, on the last slot of the first universe."""
    lines = ["IDENT 3:0", "CLEAR ALL", "PATCH 1 4096<512@FL"]
    dimmers = (dimmer for dimmer in range(1, 8193) if dimmer != 512)
    for dimmer in dimmers:
        lines.append(f"PATCH 1 {dimmer % 4095 + 1}<{dimmer}@FL")
    for number, least, more in ((1, 1, 1), (2, 255, -1)):
        lines += [f"CUE {number}", "UP 60", "DOWN 60"]
        for channel in range(1, 4096):
            lines.append(f"CHAN {channel}@H{least + more * (channel % 127):02X}")
    lines += ["SUB 1", "CHAN 4096@FL"]
    return "\n".join(lines) + "\n"


def in_order(listed: Iterable[int], order: str) -> list[int]:
    """These numbers ascending, descending, or in a random order that is the same at every run."""
    numbers = list(listed)
    if order == "random":
        random.Random(len(numbers)).shuffle(numbers)
    return numbers[::-1] if order == "descending" else numbers


def channels_show(order: str) -> str:
    """Twenty-four cues of all channels, ten pairs in a line."""
    rng = random.Random(4096)
    lines = []
    for number in range(1, 25):
        lines.append(f"CUE {number}")
        lines += chan_lines(rng, in_order(range(1, 4097), order))
    return "\n".join(lines) + "\n"


def dimmers_show(order: str) -> str:
    """All dimmers patched, each by a line of its own."""
    lines = (
        f"PATCH 1 {dimmer % 4096 + 1}<{dimmer}@FL" for dimmer in in_order(range(1, 8193), order)
    )
    return "\n".join(lines) + "\n"


def cues_show(order: str) -> str:
    """Two thousand cues of fifty channels each."""
    rng = random.Random(2000)
    lines = []
    for number in in_order(range(1, 2001), order):
        lines += [f"CUE {number}", f"UP {rng.randint(0, 90)}"]
        lines += chan_lines(rng, sorted(rng.sample(range(1, 4097), 50)))
    return "\n".join(lines) + "\n"


INPUTS: dict[str, Callable[[], str]] = {
    "megabyte": megabyte_show,
    "busy_show": busy_show,
    "busy_lines": busy_lines,
    "rehearsed_show": rehearsed_show,
    "rehearsed_script": rehearsed_script,
}

ORDERED = {"channels": channels_show, "dimmers": dimmers_show, "cues": cues_show}

for kind, show_of in ORDERED.items():
    for order in ORDERS:
        INPUTS[f"{kind}_{order}"] = partial(show_of, order)
