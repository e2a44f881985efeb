"""The answers of whole runs: status, standard output, standard error, and the packets sent."""

from typing import NamedTuple

from program import CID, packet

from . import cue_list
from . import script as scripts
from . import show as shows
from .desk import FULL, Desk, command, slot_byte
from .receiver import Receiver
from .script import tick_text
from .words import lines_of, moment, uuid, words_of

LONGEST_LINE = 200
MOST_LINES = 10_000_000


class Answer(NamedTuple):
    status: int
    out: bytes = b""
    err: bytes = b""
    packets: tuple = ()


def refusal(status, text, printed=(), packets=()):
    return Answer(status, printed_text(printed), text.encode() + b"\n", tuple(packets))


def printed_text(lines):
    return "".join(line + "\n" for line in lines).encode()


def wire(universe, sent, console):
    """A packet's bytes."""
    cid = console.cid.hex()
    return packet(
        universe, sent.slots, sent.k % 256, sent.options, console.priority, cid, console.name
    )


def check(text):
    show = shows.read(text)
    if isinstance(show, str):
        return refusal(3, show)
    tables = f"cues {len(show.cues)} subs {len(show.subs)} groups {len(show.groups)}"
    return Answer(
        0,
        f"lines {show.lines} {tables} dimmers {len(show.patch)} skipped {show.skipped}\n".encode(),
    )


def cues(text):
    show = shows.read(text)
    return refusal(3, show) if isinstance(show, str) else Answer(0, cue_list.table(show).encode())


def full(text, cue):
    """The universes of a cue at full, each with its slots that are not 0, or what is answered in
    their place; `cue` is in thousandths."""
    show = shows.read(text)
    if isinstance(show, str):
        return refusal(3, show)
    if cue not in show.cues:
        return refusal(3, "show: NoCue")
    levels = show.cues[cue].levels
    frames = {k: {} for k in show.universes()}
    for dimmer, (channel, patch) in show.patch.items():
        byte = slot_byte(255 * levels.get(channel, 0), FULL, patch)
        if byte:
            frames[(dimmer - 1) // 512][(dimmer - 1) % 512 + 1] = byte
    return frames


UNPATCHED = Answer(0, err=b"no dimmer is patched\n")


def look(text, cue, cid=CID):
    frames = full(text, cue)
    if isinstance(frames, Answer):
        return frames
    lines = [packet(k + 1, slots, cid=cid).hex() for k, slots in frames.items()]
    return Answer(0, printed_text(lines)) if lines else UNPATCHED


def slots(text, cue, base=1):
    frames = full(text, cue)
    if isinstance(frames, Answer):
        return frames
    if base + max(frames, default=0) > 63999:
        return refusal(2, "base: Universe")
    lines = []
    for k, levels in frames.items():
        lines += [f"universe {base + k}"]
        lines += ["slots" + "".join(f" {n}:{byte}" for n, byte in sorted(levels.items()))]
    return Answer(0, printed_text(lines)) if lines else UNPATCHED


def play_line(desk, line):
    """What is printed of a line of `play`, and the packets that it sends; None where it is
    malformed."""
    words = words_of(line)
    if not words:
        return "", ()
    at = moment(words[0])
    if at is None or not words[1:]:
        return None
    if words[1].lower() == b"tick" and len(words) == 2:
        answer = desk.tick(at)
        sent = [] if isinstance(answer, str) else [(u, p) for u, p in answer[1] if p]
        return f"{at} {tick_text(answer)}", sent
    asked = command(words[1:])
    if asked is None:
        return None
    refusal = desk.order(at, asked)
    return f"{at} " + (f"refused {refusal}" if refusal else "ok"), ()


def play(text, lines, base=1, priority=100, cid=CID):
    show = shows.read(text)
    if isinstance(show, str):
        return refusal(3, show)
    if base + max(show.universes(), default=0) > 63999:
        return refusal(2, "base: Universe")
    console = scripts.Console(base, priority, uuid(cid.encode()))
    desk = Desk(show, base)
    printed, packets = [], []
    for n, line in enumerate(lines_of(lines), 1):
        fits = len(line) <= LONGEST_LINE and n <= MOST_LINES
        answer = play_line(desk, line) if fits else None
        if answer is None:
            return refusal(4, f"line {n} refused", printed, packets)
        printed += [answer[0]] if answer[0] else []
        packets += [wire(universe, sent, console) for universe, sent in answer[1]]
    return Answer(0, printed_text(printed), packets=tuple(packets))


def rehearse(text, script):
    show = shows.read(text)
    if isinstance(show, str):
        return refusal(3, show)
    if len(script) > scripts.LONGEST:
        return refusal(4, "script: TooLong")
    said = scripts.read(script)
    fault = said if isinstance(said, str) else scripts.setup_fault(show, said[0], said[1])
    if fault:
        return refusal(4, fault)
    consoles, receivers, events = said
    night = scripts.Night(show, consoles, receivers, wire)
    printed = [f"{event.line} {night.reply(event)}" for event in events]
    printed += [f"end {r} {each.slots_line(night.now)}" for r, each in enumerate(night.receivers)]
    return Answer(0, printed_text(printed))


def listen(universe, datagrams):
    receiver = Receiver(universe)
    printed = [f"{n} {receiver.take(0, sent[:1500])}" for n, sent in enumerate(datagrams, 1)]
    return Answer(0, printed_text(printed + [receiver.slots_line(0)]))
