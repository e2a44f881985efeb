"""Cases: datagrams with pauses between them, and looks at what the receiver shows.

What it has to show is asked of the program (`expected`). Where the standard leaves a choice, a
case has further readings: each is the same case for a receiver that has chosen so, told by which
datagrams it hears. A receiver that holds the last look of a lost source is one for which that
source goes on."""

import uuid
from collections.abc import Callable
from dataclasses import dataclass, field

from cueplayer_tools.conform.packets import TERMINATED, DataPacket, full_slots

# Between two datagrams, and before a look, in milliseconds.
PAUSE = 10
SETTLE = 200
# The reading that the program gives, and the rule asks for.
PLAIN = ""
_NAMES = uuid.UUID("c0ffee00-0000-4000-8000-00000000e131")


@dataclass(frozen=True)
class Datagram:
    """One that is sent, so many milliseconds after the step before, by one of the sockets, to the
    first or the second universe of the case. It is heard in every reading but those in `unheard`.
    One that has `only` is heard in that reading, and is not sent."""

    data: bytes
    wait: int = PAUSE
    sender: int = 0
    unheard: frozenset[str] = frozenset()
    only: str | None = None
    place: int = 0

    def is_heard(self, reading: str) -> bool:
        return reading not in self.unheard if self.only is None else reading == self.only


@dataclass(frozen=True)
class Look:
    """A look at the slots of one of the universes, and what it is about."""

    wait: int
    about: str
    place: int = 0


Step = Datagram | Look


@dataclass
class Source:
    """A source of a case: a CID, and what its packets have if nothing else is said."""

    script: "Script"
    cid: bytes
    priority: int = 100

    def packet(self, levels: dict[int, int], **fields: object) -> DataPacket:
        """Its next packet. The numbers of a case rise by one over all of its sources, so that a
        source has gaps, as after a loss, and a case says where numbers fall."""
        number = fields.pop("number", None)
        if number is None:
            number = self.script.number + 1
        assert isinstance(number, int)
        self.script.number = number
        slots = fields.pop("slots", None)
        whole = full_slots(levels) if slots is None else slots
        assert isinstance(whole, bytes)
        packet = DataPacket(self.cid, self.script.universe, number, whole, self.priority)
        return packet.but(**fields)

    def send(self, levels: dict[int, int], **fields: object) -> None:
        self.script.send(self.packet(levels, **fields))

    def send_there(self, levels: dict[int, int], **fields: object) -> None:
        """The same, to the second universe."""
        packet = self.packet(levels, universe=self.script.other, **fields)
        self.script.send(packet, place=1)

    def end(self) -> None:
        self.send({}, options=TERMINATED)


@dataclass
class Script:
    """The steps of a case in its universe, or in two, as they are written down."""

    universe: int
    other: int
    salt: str = ""
    number: int = 9
    steps: list[Step] = field(default_factory=list)
    sources: list[Source] = field(default_factory=list)

    def source(self, priority: int = 100) -> Source:
        name = f"{self.salt}/{self.universe}/{len(self.sources)}"
        self.sources.append(Source(self, uuid.uuid5(_NAMES, name).bytes, priority))
        return self.sources[-1]

    def send(
        self,
        packet: DataPacket | bytes,
        wait: int = PAUSE,
        sender: int = 0,
        unheard: tuple[str, ...] = (),
        place: int = 0,
    ) -> None:
        data = packet if isinstance(packet, bytes) else packet.to_bytes()
        self.steps.append(Datagram(data, wait, sender, frozenset(unheard), place=place))

    def as_if(self, reading: str, packet: DataPacket, wait: int = 0) -> None:
        """To a receiver of this reading all is as if this had come."""
        self.steps.append(Datagram(packet.to_bytes(), wait, only=reading))

    def look(self, about: str, wait: int = SETTLE) -> None:
        self.steps.append(Look(wait, about))

    def look_there(self, about: str, wait: int = SETTLE) -> None:
        """The same, at the second universe."""
        self.steps.append(Look(wait, about, 1))


@dataclass(frozen=True)
class Case:
    """A case of a rule. `plain` names the choice of the plain reading where the standard leaves
    one, and `readings` the others; a receiver of none of them breaks the rule, unless the case
    `is_open`: then what it does is told, and no more. One that `is_wide` needs two universes, and
    one that `moves` a second address to send from."""

    name: str
    write: Callable[[Script], None]
    plain: str = ""
    readings: tuple[str, ...] = ()
    is_open: bool = False
    is_wide: bool = False
    moves: bool = False

    def script(self, universe: int, other: int = 0, salt: str = "") -> Script:
        script = Script(universe, other, f"{salt}/{self.name}")
        self.write(script)
        return script

    def lasts(self) -> int:
        """Milliseconds from its first step to its last."""
        return sum(step.wait for step in self.script(1, 2).steps)


@dataclass(frozen=True)
class Rule:
    """What the standard asks for, where it does, and the cases that show it."""

    name: str
    clause: str
    asks: str
    cases: tuple[Case, ...]
