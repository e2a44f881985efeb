"""What a cue changes on the stage: the channels that rise, fall and go out."""

from dataclasses import dataclass

from cueplayer_tools.channel_levels import Levels
from cueplayer_tools.cue_list import Show, slot_of
from cueplayer_tools.looks import Look, slots_in
from cueplayer_tools.picture.curves import ranges

MOST_GROUPS = 12


@dataclass(frozen=True)
class Change:
    """What some channels do together, as `up`, and where they go."""

    kind: str
    channels: list[int]
    level: int

    def words(self) -> str:
        """The channels, and the level where they do not go out."""
        # What belongs together stays on one line.
        to = "" if self.level == 0 else f" to\N{NO-BREAK SPACE}{percent(self.level)}"
        return f"{ranges(self.channels)}{to}"


def percent(level: int) -> str:
    """A level byte as people say it."""
    return "full" if level == 255 else f"{(level * 100 + 127) // 255}"


def patched_levels(show: Show, look: Look) -> Levels:
    """What the brightest dimmer of each patched channel gets."""
    slots = {universe: slots_in(text) for universe, text in look.items()}
    levels: Levels = {}
    for dimmer, channel in show.patch.items():
        universe, slot = slot_of(dimmer, 1)
        level = slots.get(universe, {}).get(slot, 0)
        levels[channel] = max(levels.get(channel, 0), level)
    return levels


def changes(before: Levels, after: Levels) -> list[Change]:
    """What changes from one look to the next: what rises, what falls, what goes out."""
    moved: dict[tuple[str, int], list[int]] = {}
    for channel in sorted(before.keys() | after.keys()):
        old, new = before.get(channel, 0), after.get(channel, 0)
        if old != new:
            kind = "up" if new > old else "down" if new else "out"
            moved.setdefault((kind, new), []).append(channel)
    order = ("up", "down", "out")
    found = [Change(kind, channels, level) for (kind, level), channels in moved.items()]
    return sorted(found, key=lambda change: (order.index(change.kind), change.channels[0]))


def change_lines(found: list[Change]) -> list[tuple[str, str]]:
    """The changes of each kind in words, and how many channels there are beyond those told."""
    shown, rest = found[:MOST_GROUPS], found[MOST_GROUPS:]
    lines = []
    for kind in ("up", "down", "out"):
        words = [change.words() for change in shown if change.kind == kind]
        if words:
            lines.append((kind, "; ".join(words)))
    if rest:
        more = sum(len(change.channels) for change in rest)
        lines.append(("and", f"{more} channel{'s' if more > 1 else ''} more"))
    return lines


def patched_lines(found: list[Change], patched: Levels) -> list[tuple[str, str]]:
    """Of the channels told, those whose dimmers get another level, and those that have none."""
    others: dict[int, list[int]] = {}
    bare = []
    for change in found[:MOST_GROUPS]:
        for channel in change.channels if change.level else ():
            if channel not in patched:
                bare.append(channel)
            elif patched[channel] != change.level:
                others.setdefault(patched[channel], []).append(channel)
    words = [Change("", sorted(channels), level) for level, channels in sorted(others.items())]
    lines = [("patched", "; ".join(_patched_words(each) for each in words))] if words else []
    return [*lines, ("no dimmer", ranges(sorted(bare)))] if bare else lines


def _patched_words(each: Change) -> str:
    return f"{ranges(each.channels)} at\N{NO-BREAK SPACE}{percent(each.level)}"
