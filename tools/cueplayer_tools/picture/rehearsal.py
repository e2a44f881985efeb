"""The picture of a rehearsal: what each receiver showed, what was sent, and what never arrived."""

from dataclasses import dataclass, field

from cueplayer_tools.night import Curve, Slot
from cueplayer_tools.picture.axis import (
    LEFT,
    RIGHT,
    ROW,
    Axis,
    Label,
    clock,
    draw_labels,
    label_rows,
)
from cueplayer_tools.picture.curves import MOST_CURVES, Named, draw_levels, lit
from cueplayer_tools.picture.svg import Drawing
from cueplayer_tools.rehearsal import Rehearsal, Slots

TOP = 40.0
PLOT = 150.0
LANE = 20.0
# The slots of a receiver, each behind the moment at which it showed them.
Shown = list[tuple[int, Slots]]


@dataclass
class _Packet:
    """A packet that a console sent."""

    console: int
    universe: int
    moment: int
    arrived: bool = False


@dataclass
class _Told:
    """What the replies tell."""

    shown: dict[int, Shown] = field(default_factory=dict)
    # Receiver, console (None of a stray), moment, and whether it was ignored.
    heard: list[tuple[int, int | None, int, bool]] = field(default_factory=list)
    packets: dict[tuple[int, int], list[_Packet]] = field(default_factory=dict)
    labels: list[Label] = field(default_factory=list)
    first: int = 0
    last: int = 0


def _collect(rehearsal: Rehearsal) -> _Told:
    told = _Told()
    events = [event for event in rehearsal.events if not event.is_skipped]
    told.first = events[0].moment if events else 0
    told.last = events[-1].moment if events else 0
    for event in events:
        kind, moment, ignored = event.words[0], event.moment, event.reply[0] == "ignored"
        if kind == "slots":
            told.shown.setdefault(int(event.words[1]), []).append((moment, event.slots()))
        elif kind == "tick":
            console = int(event.words[1])
            for universe in event.sent_universes():
                packets = told.packets.setdefault((console, universe), [])
                packets.append(_Packet(console, universe, moment))
        elif kind == "deliver":
            receiver, console, universe, packet = map(int, event.words[1:])
            told.packets[console, universe][packet].arrived = True
            told.heard.append((receiver, console, moment, ignored))
        elif kind == "stray":
            told.heard.append((int(event.words[1]), None, moment, ignored))
        else:
            told.labels.append(_label(event.words, event.reply, moment, len(rehearsal.consoles)))
    for receiver, slots in enumerate(rehearsal.last):
        told.shown.setdefault(receiver, []).append((told.last, slots))
    return told


def _label(words: tuple[str, ...], reply: tuple[str, ...], moment: int, consoles: int) -> Label:
    command = " ".join(words[2:])
    text = f"{words[1]}: {command}" if consoles > 1 else command
    refused = reply[0] == "refused"
    return Label(moment, f"{text} {reply[-1]}" if refused else text, refused)


def _curves(shown: Shown, universe: int) -> list[Named]:
    """The curves of all slots that a receiver showed."""
    slots = sorted({slot for _, lit_slots in shown for slot in lit_slots})
    curves: dict[Slot, Curve] = {
        (universe, slot): [lit_slots.get(slot, 0) for _, lit_slots in shown] for slot in slots
    }
    return lit(curves, {})


def _draw_receiver(
    drawing: Drawing, axis: Axis, top: float, name: str, shown: Shown, universe: int
) -> int:
    """What one receiver showed; how many curves were left away."""
    drawing.text(4, top + 20, name)
    drawing.text(4, top + 34, f"universe {universe}", "faint")
    curves = _curves(shown, universe)
    kept = sorted(curves, key=lambda each: -max(each.curve))[:MOST_CURVES]
    draw_levels(drawing, axis, [moment for moment, _ in shown], kept, top, top + PLOT)
    return len(curves) - len(kept)


def _draw_sent(
    drawing: Drawing, axis: Axis, top: float, name: str, packets: list[_Packet]
) -> None:
    """A lane with the packets of a console's universe: a stroke each, a cross where lost."""
    drawing.text(4, top + 14, name)
    drawing.line(LEFT, top + 10, RIGHT, top + 10, "rule")
    for packet in packets:
        x = axis.at(packet.moment)
        if packet.arrived:
            drawing.line(x, top + 5, x, top + 15, "mark")
        else:
            drawing.cross(x, top + 10)
    lost = sum(not packet.arrived for packet in packets)
    told = f"{lost} of {len(packets)} lost"
    drawing.text(RIGHT + 26, top + 14, told, "alarmed" if lost else "faint")


def _description(rehearsal: Rehearsal, told: _Told) -> str:
    commands = "; ".join(f"{clock(label.moment)} {label.text}" for label in told.labels)
    lost = sum(not each.arrived for packets in told.packets.values() for each in packets)
    ignored = sum(was for *_, was in told.heard)
    return (
        f"What {len(rehearsal.receivers)} receivers showed of {len(rehearsal.consoles)} consoles."
        f" {commands}. {lost} packets never arrived, {ignored} datagrams were ignored."
    )


def draw_rehearsal(title: str, rehearsal: Rehearsal) -> str:
    """The picture, as a file."""
    told = _collect(rehearsal)
    axis = Axis(told.first, max(told.last, told.first + 1))
    drawing = Drawing(title, _description(rehearsal, told))
    drawing.text(LEFT, 24, title, "title")
    top = TOP + ROW * (max(label_rows(axis, told.labels), default=-1) + 1) + 10
    below = top + len(rehearsal.receivers) * (PLOT + 16)
    lanes = [
        (f"console {console}, univ. {universe}", packets)
        for (console, universe), packets in sorted(told.packets.items())
    ]
    axis.draw(drawing, top, below + LANE * len(lanes))
    draw_labels(drawing, axis, told.labels, TOP, below - 16)
    left_away = 0
    for receiver, universe in enumerate(rehearsal.receivers):
        where = top + receiver * (PLOT + 16)
        name = f"receiver {receiver}"
        left_away += _draw_receiver(drawing, axis, where, name, told.shown[receiver], universe)
    for place, (name, packets) in enumerate(lanes):
        _draw_sent(drawing, axis, below + LANE * place, name, packets)
    height = below + LANE * len(lanes) + 34
    if left_away:
        height += ROW
        drawing.text(LEFT, height - 8, f"and {left_away} lower curves", "faint")
    return drawing.file_text(height)


def moments_between(moments: list[int], count: int) -> list[int]:
    """Even moments between the first and the last of these."""
    if not moments:
        return []
    first, last = moments[0], max(moments)
    step = max((last - first) // count, 1)
    return list(range(first, last, step))
