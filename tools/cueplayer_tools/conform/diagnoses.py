"""What is said of a trial as a whole: the receiver ended, or is deaf, or nothing was ever shown."""

import tempfile
from dataclasses import dataclass, replace
from pathlib import Path
from typing import Any

from cueplayer_tools.conform.hearing import Deaf
from cueplayer_tools.conform.rounds import Tried
from cueplayer_tools.conform.trial import Death, Sent
from cueplayer_tools.line_protocol import Refused, count_of
from cueplayer_tools.rehearsal import Slots

ENDED, IS_DEAF, DARK, STILL, STOPPED = "ended", "deaf", "nothing was ever shown", "still", "stopped"
# Longer slots lines are cut for people.
MOST_SLOTS = 8


@dataclass(frozen=True)
class Culprit:
    """A packet that may have ended the receiver, and the file that has it."""

    rule: str
    case: str
    data: bytes
    file: str = ""


@dataclass(frozen=True)
class Diagnosis:
    """What happened, what to do, and the packets that may have done it."""

    what: str
    says: str
    packets: tuple[Culprit, ...] = ()

    def as_json(self) -> dict[str, object]:
        packets = [
            {"rule": each.rule, "case": each.case, "hex": each.data.hex(), "file": each.file}
            for each in self.packets
        ]
        return {"what": self.what, "says": self.says, "packets": packets}

    def lines(self) -> list[str]:
        """For people."""
        return [f"{self.what}: {self.says}", *map(_packet_line, self.packets)]


def from_json(said: dict[str, Any]) -> Diagnosis:
    """The diagnosis that `as_json` made an object of."""
    packets = tuple(
        Culprit(each["rule"], each["case"], bytes.fromhex(each["hex"]), each["file"])
        for each in said["packets"]
    )
    return Diagnosis(said["what"], said["says"], packets)


def _packet_line(packet: Culprit) -> str:
    told = f"{packet.rule}, {packet.case}: {packet.file or count_of(len(packet.data), 'byte')}"
    return f"  {told}: {packet.data.hex()}"


def slots_text(slots: Slots) -> str:
    """The first slots of a look."""
    pairs = [f"{slot}:{level}" for slot, level in sorted(slots.items())]
    cut = [".."] if len(pairs) > MOST_SLOTS else []
    return " ".join(["slots", *pairs[:MOST_SLOTS], *cut]) if pairs else "no light"


def _of_death(death: Death) -> Diagnosis:
    packets = tuple(_culprit(each) for each in death.sent)
    tried = "; ".join(f"{rule.name}, {case.name}" for rule, case in death.cases)
    which = "the packet" if len(packets) == 1 else f"one of {len(packets)} packets"
    told = f"by {which} of {tried}" if packets else f"in {tried}"
    return Diagnosis(ENDED, f"{death.says}; {told}", packets)


def _culprit(sent: Sent) -> Culprit:
    return Culprit(sent.rule.name, sent.case.name, sent.data)


def _of_deafness(deaf: Deaf, was_lit: bool) -> Diagnosis:
    where = f"universe {deaf.universes[0]}"
    if len(deaf.universes) > 1:
        where = f"each of {len(deaf.universes)} universes"
    if not was_lit:
        return Diagnosis(DARK, f"{where}; check --to, --universes, --card and --command")
    if deaf.since is None:
        told = f"{where} always shows {slots_text(deaf.shown)}"
        return Diagnosis(STILL, f"{told}; does another source hold it, or --command show another?")
    count = f"{deaf.least}" if deaf.least == deaf.most else f"{deaf.least} to {deaf.most}"
    since = f"{deaf.since[0].name}, {deaf.since[1].name}"
    told = f"after {count} sources {where} shows nothing new from {since} on"
    return Diagnosis(IS_DEAF, f"{told}; restart it, and try the others by --rule")


def diagnoses_of(tried: Tried) -> tuple[Diagnosis, ...]:
    """All that is said of a trial."""
    was_lit = any(done.seen for played in tried.played for done in played.done)
    found = [_of_death(each) for each in tried.deaths]
    found += [_of_deafness(each, was_lit) for each in tried.deaf]
    looked = any(done.seen is not None for played in tried.played for done in played.done)
    if looked and not was_lit and not tried.deaf:
        universes = tuple(sorted({played.universes[0] for played in tried.played}))
        found.append(_of_deafness(Deaf(universes, None, 0, 0, {}, ()), False))
    if tried.stopped:
        found.append(Diagnosis(STOPPED, tried.stopped))
    return tuple(found)


def kept(diagnoses: tuple[Diagnosis, ...], folder: str = "") -> tuple[Diagnosis, ...]:
    """The same, with each packet in a file, as it was sent; in a new folder where none is named."""
    if not any(each.packets for each in diagnoses):
        return diagnoses
    try:
        at = Path(folder or tempfile.mkdtemp(prefix="conform-"))
        at.mkdir(parents=True, exist_ok=True)
        number, found = 0, []
        for diagnosis in diagnoses:
            packets = []
            for each in diagnosis.packets:
                number += 1
                file = at / f"packet-{number}.bin"
                file.write_bytes(each.data)
                packets.append(replace(each, file=str(file)))
            found.append(replace(diagnosis, packets=tuple(packets)))
    except OSError as fault:
        raise Refused(f"{folder}: {fault.strerror}") from fault
    return tuple(found)
