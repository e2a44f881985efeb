"""The state of a night as a page gets it: plain data, complete each time."""

from typing import Any

from cueplayer_tools.cue_list import Record, Show, slot_of
from cueplayer_tools.desk.heard import HeardNight
from cueplayer_tools.desk.state import Span
from cueplayer_tools.line_protocol import cue_word


def _records(kind: str, records: dict[int, Record]) -> list[dict[str, str]]:
    return [{"line": f"{kind} {at}", "name": records[at].name} for at in sorted(records)]


def show_view(show: Show, title: str, base: int, osc: str | None) -> dict[str, Any]:
    """What does not change in a night: the cue list, the faders, the universes, and where Open
    Sound Control is taken."""
    cues = [
        {
            "number": cue_word(number),
            "name": show.cues[number].name,
            "up": vars(show.cues[number].rise),
            "down": vars(show.cues[number].fall),
            "follow": show.cues[number].follow,
        }
        for number in show.order
    ]
    faders = _records("sub", show.subs) + _records("group", show.groups)
    universes = show.universes(base)
    # A file's name may hold what turns a line round, or is no letter.
    shown = "".join(letter if letter.isprintable() else "?" for letter in title)
    return {
        "title": shown,
        "cues": cues,
        "faders": faders,
        "universes": universes,
        "channels": _channels(show, base),
        "osc": osc,
    }


def _channels(show: Show, base: int) -> list[dict[str, Any]]:
    """The patched channels, each with its slots: the universe, the slot, and the slot's level while
    the channel is at full."""
    slots: dict[int, list[tuple[int, int, int]]] = {}
    for dimmer, channel in sorted(show.patch.items()):
        slots.setdefault(channel, []).append((*slot_of(dimmer, base), show.full[dimmer]))
    return [{"number": channel, "dimmers": slots[channel]} for channel in sorted(slots)]


def _spelling(cue: int | None) -> str | None:
    return None if cue is None else cue_word(cue)


def _since(span: Span | None, now: int) -> dict[str, int | None] | None:
    """How long a span is, and how much of it is over; that is None where it is not known."""
    if span is None:
        return None
    elapsed = None if span.moment is None else max(now - span.moment, 0)
    return {"whole": span.whole, "elapsed": elapsed}


def state_view(night: HeardNight) -> dict[str, Any]:
    """What changes. Called with the night's lock held."""
    state, now = night.state, night.clock.now()
    return {
        "number": night.version,
        "current": _spelling(state.current),
        "next": _spelling(state.following),
        "placed": state.is_placed,
        "since": None if state.moved is None else max(now - state.moved, 0),
        "fade": _since(state.fade, now),
        "follow": _since(state.follow, now),
        "grand": state.grand,
        "lit_grand": state.lit_grand,
        "masters": dict(state.masters),
        "waiting": len(night.input.waiting),
        "lost": {**vars(state.lost), "ago": max(now - state.lost.moment, 0)},
        "skipped": state.skipped,
        "ways": list(state.ways),
        "troubles": [
            {"kind": each.kind, "text": line} for each, line in state.troubles.items()
        ],
        "notices": [
            {"number": each.number, "kind": each.kind, "text": each.text, "page": each.page}
            for each in state.notices
        ],
        "late": state.is_late,
        "ending": state.is_ending,
        "status": state.status,
        "resumes": night.can_resume(),
    }
