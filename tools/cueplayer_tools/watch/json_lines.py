"""The lines of `tools/watch` as JSON: one object a line."""

import json
from collections.abc import Callable
from typing import Any

from cueplayer_tools.watch.rates import Rates
from cueplayer_tools.watch.state import Universe, Watched
from cueplayer_tools.watch_lines import (
    DroppedLine,
    FlashLine,
    IgnoredLine,
    LeadsLine,
    LeftLine,
    LostLine,
    SlotsLine,
    SourceLine,
    WatchLine,
    read_watch_line,
)


def _told(said: WatchLine) -> dict[str, Any]:
    """What a line says beside its moment and its universe, its word first."""
    match said:
        case SlotsLine(levels=levels):
            lit = {str(slot): level for slot, level in enumerate(levels, 1) if level}
            return {"event": "slots", "slots": lit}
        case FlashLine(slots=slots):
            return {"event": "flash", "slots": [*slots]}
        case IgnoredLine(reason=reason, datagrams=count):
            return {"event": "ignored", "reason": reason, "datagrams": count}
        case DroppedLine(datagrams=count):
            return {"event": "dropped", "datagrams": count}
        case SourceLine(name=name, cid=cid, priority=priority):
            return {"event": "source", "name": name, "cid": cid, "priority": priority}
        case LeftLine(word=word, name=name, cid=cid):
            return {"event": word, "name": name, "cid": cid}
        case LeadsLine(name=name, cid=cid):
            return {"event": "leads", "name": name, "cid": cid}
        case LostLine(name=name, cid=cid, packets=packets):
            return {"event": "lost", "name": name, "cid": cid, "packets": packets}
        case _:
            return {}


def event(line: str) -> dict[str, Any]:
    """What a line says."""
    said = read_watch_line(line)
    if said is None:
        return {"line": line}
    return {"moment": said.moment, "universe": said.universe} | _told(said)


def in_json(print_line: Callable[[str], None]) -> Callable[[str], None]:
    """Prints each line as an object."""
    return lambda line: print_line(json.dumps(event(line)))


def _table_of(universe: Universe, rates: Rates) -> dict[str, Any]:
    sources = []
    for cid, source in universe.sources.items():
        rate, host = rates.of(universe.number, cid)
        sources.append(
            {
                "name": source.name,
                "cid": cid,
                "priority": source.priority,
                "leads": universe.leads(cid),
                "rate": rate,
                "lost": source.lost,
                "address": host,
            }
        )
    left = [
        {"name": left.name, "cid": cid, "priority": left.priority, "how": left.word}
        | {"moment": left.moment}
        for cid, left in universe.left.items()
    ]
    slots = {str(slot): level for slot, level in enumerate(universe.slots, 1) if level}
    told = {"sources": sources, "left": left, "ignored": dict(universe.ignored), "slots": slots}
    return {"universe": universe.number, "event": "table"} | told


def tables(watched: Watched, rates: Rates, dropped: int) -> list[str]:
    """Who sends what: an object for each universe, and one for what belongs to none."""
    told = [_table_of(universe, rates) for universe in watched.universes.values()]
    rest = {"universe": 0, "event": "table", "ignored": dict(watched.ignored), "dropped": dropped}
    return [json.dumps({"moment": watched.moment} | each) for each in [*told, rest]]
