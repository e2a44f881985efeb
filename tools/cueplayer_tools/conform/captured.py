"""What a trial sent, as captures: one for each case, or all in one."""

import re
from collections.abc import Callable
from pathlib import Path

from cueplayer_tools.addresses import Address
from cueplayer_tools.captures.writing import Frame, capture_of
from cueplayer_tools.conform.capture import Heard
from cueplayer_tools.conform.diagnoses import slots_text
from cueplayer_tools.conform.expected import Done
from cueplayer_tools.conform.peers import PORT
from cueplayer_tools.conform.script import Look
from cueplayer_tools.conform.verdicts import Named, Played
from cueplayer_tools.line_protocol import Refused

SUFFIX = ".pcapng"
NOBODY = "0.0.0.0"
# From where and to where a datagram of a universe goes, by one of the sockets.
Route = Callable[[int, int], tuple[Address, Address]]


def file_name(named: Named) -> str:
    """The case, as the name of a file."""
    words = re.findall(r"[a-z0-9.]+", f"{named[0].name} {named[1].name}".lower())
    return "-".join(words)


def _told(done: Done) -> str:
    assert isinstance(done.step, Look)
    return f"then {slots_text(dict(done.seen or ()))}: {done.step.about}"


def frames_of(played: Played, route: Route, begun: int) -> list[Frame]:
    """What was sent in a case. The first frame names it, and each is told what was seen next; a run
    began at that moment, in microseconds."""
    named = f"{played.rule.name}, {played.case.name} ({played.rule.clause}): {played.rule.asks}"
    frames: list[Frame] = []
    remarks: list[list[str]] = []
    for each in played.done:
        if isinstance(each.step, Look):
            if remarks:
                remarks[-1].append(_told(each))
        elif each.step.only is None:
            source, to = route(played.universes[each.step.place], each.step.sender)
            moment = begun + 1000 * (played.begun + each.begun)
            frames.append(Frame(moment, source, to, each.step.data))
            remarks.append([] if remarks else [named])
    texts = ["; ".join(each) for each in remarks]
    return [
        Frame(each.moment, each.source, each.to, each.data, text)
        for each, text in zip(frames, texts, strict=True)
    ]


def write_captures(name: str, all_played: list[Played], route: Route, begun: int) -> None:
    """Writes what was sent to a file, or each case to one of its own in a folder; a case that was
    played again has its number behind its name."""
    by_case: dict[str, list[Frame]] = {}
    for played in all_played:
        plain = file_name((played.rule, played.case))
        count = sum(known.partition(" ")[0] == plain for known in by_case)
        by_case[f"{plain} {count + 1}"] = frames_of(played, route, begun)
    if name.endswith(SUFFIX):
        frames = [frame for frames in by_case.values() for frame in frames]
        write_bytes(name, capture_of(sorted(frames, key=lambda frame: frame.moment)))
        return
    for case, frames in by_case.items():
        file = case.removesuffix(" 1").replace(" ", "-") + SUFFIX
        write_bytes(Path(name, file), capture_of(frames))


def write_heard(name: str, came: list[Heard]) -> None:
    """Writes what was heard of a source."""
    frames = (
        Frame(int(1e6 * each.moment), each.sender, (each.to or NOBODY, PORT), each.data)
        for each in came
    )
    write_bytes(name, capture_of(frames))


def write_bytes(name: str | Path, data: bytes) -> None:
    """Writes a file, in a folder that is made if need be; or Refused."""
    try:
        if not Path(name).parent.exists():
            Path(name).parent.mkdir(parents=True)
        Path(name).write_bytes(data)
    except OSError as fault:
        raise Refused(f"{name}: {fault.strerror}") from fault


def write_text(name: str, text: str) -> None:
    write_bytes(name, text.encode())
