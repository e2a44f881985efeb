"""Rules of several sources: priority, how they are merged, how many there may be, who is who."""

from cueplayer_tools.conform.packets import DataPacket
from cueplayer_tools.conform.script import PAUSE, Case, Rule, Script

# How far another universe is, of which the low byte is the same, and of which none is.
OF_ONE_BYTE, OF_NONE = 256 * 37, 20_000
LAST_UNIVERSE = 63_999
# The sockets of a trial beside the first.
SECOND_PORT, SECOND_ADDRESS = 1, 2


def _higher(script: Script) -> None:
    low, high = script.source(100), script.source(101)
    low.send({1: 10})
    high.send({2: 20})
    script.look("the higher priority shows alone")
    low.send({1: 12})
    script.look("a packet of the lower priority changes nothing")


def _lower_later(script: Script) -> None:
    high, low = script.source(150), script.source(100)
    high.send({2: 20})
    low.send({1: 10})
    script.look("a source of lower priority that begins later does not show")


def _priority_falls(script: Script) -> None:
    one, other = script.source(150), script.source(100)
    one.send({2: 20})
    other.send({1: 10})
    one.send({2: 20}, priority=50)
    other.send({1: 11})
    script.look("a source that lowers its priority gives way to the next packet of another")
    one.send({2: 21}, priority=150)
    script.look("a source that raises its priority shows")


def _lowest(script: Script) -> None:
    script.source(0).send({1: 10})
    script.look("priority 0 is a priority")


def _highest(script: Script) -> None:
    low, high = script.source(199), script.source(200)
    low.send({1: 10})
    high.send({2: 20})
    script.look("priority 200 shows alone")


TAKES_IT = "shows it"


def _beyond(script: Script) -> None:
    low, high = script.source(100), script.source(201)
    low.send({1: 10})
    packet = high.packet({2: 20})
    script.send(packet)
    script.as_if(TAKES_IT, packet.but(priority=200))
    script.look("priority 201, which no source may send")


NEWEST, FIRST, LAST = "the newest source alone", "the first source alone", "the last packet"


def _merge(script: Script) -> None:
    one, other = script.source(), script.source()
    script.send(one.packet({1: 10, 2: 90}))
    script.send(other.packet({1: 20, 2: 30}), unheard=(FIRST,))
    script.as_if(NEWEST, one.packet({}, priority=0))
    script.as_if(LAST, one.packet({}, priority=0))
    script.look("two sources of one priority")
    again = one.packet({1: 15, 2: 80})
    script.send(again, unheard=(NEWEST,))
    script.as_if(LAST, again.but(number=again.number + 1, priority=150))
    script.look("the first of them sends again")


MOST_TRIED = 8
OURS = 4


def _count(number: int) -> str:
    if number == MOST_TRIED:
        return f"{number} or more"
    return "1 source, the first" if number == 1 else f"{number} sources"


COUNTS = tuple(_count(number) for number in range(1, MOST_TRIED + 1) if number != OURS)
NEWEST_OF_ALL = "the newest source alone"


def _all_sources(script: Script) -> None:
    """Each source lights a slot of its own."""
    packets = [script.source().packet({n: 10 * n}) for n in range(1, MOST_TRIED + 1)]
    for packet in packets:
        script.send(packet, unheard=(*COUNTS, NEWEST_OF_ALL))
    for number in range(1, MOST_TRIED + 1):
        if number != OURS:
            whole = packets[0].but(slots=_lit(packets[:number]))
            script.as_if(_count(number), whole)
    script.as_if(NEWEST_OF_ALL, packets[-1])
    script.look(f"{MOST_TRIED} sources of one priority")


def _lit(packets: list[DataPacket]) -> bytes:
    """The slots that any of these lights."""
    return bytes(map(max, *(packet.slots for packet in packets), bytes(512)))


def _moved(sender: int, name: str) -> Case:
    """A source that sends on from elsewhere, and comes back."""

    def write(script: Script) -> None:
        one = script.source()
        one.send({1: 50})
        script.send(one.packet({1: 20}), sender=sender)
        script.look(f"a source that sends from {name} is the same source")
        one.send({1: 10})
        script.look(f"a source that comes back from {name} is the same source")

    return Case(name, write, moves=sender == SECOND_ADDRESS)


def _named_anew(script: Script) -> None:
    one = script.source()
    one.send({1: 50}, name=b"stage left")
    one.send({1: 20}, name=b"stage right")
    script.look("a source with another name is the same source")


def _name_of_any_bytes(script: Script) -> None:
    one = script.source()
    one.send({1: 50})
    one.send({1: 20}, name="Bühne".encode())
    script.look("a name beyond ASCII")
    one.send({1: 30}, name=b"")
    script.look("an empty name")


def _other_universe(further: int, about: str) -> Case:
    def write(script: Script) -> None:
        one = script.source()
        one.send({1: 10})
        beyond = script.universe + further > LAST_UNIVERSE
        one.send({1: 20}, universe=script.universe + (-further if beyond else further))
        script.look(about)

    return Case(about, write)


# Of sources that come and go: so many at a time, each time behind the loss of all before.
TIMES, AT_A_TIME, LOST = 5, 4, 3000


def _come_and_go(script: Script) -> None:
    """A receiver that keeps lost sources has no room for more at some time."""
    for time in range(TIMES):
        for number in range(AT_A_TIME):
            one = script.source()
            wait = LOST if time and not number else PAUSE
            script.send(one.packet({1: 10 + AT_A_TIME * time + number}), wait)
            if not number:
                script.look(f"{len(script.sources)} sources, all but the last of them lost")
            one.end()


RULES = (
    Rule(
        "priority",
        "6.2.3",
        "Sources of the highest priority show, and no other",
        (
            Case("higher", _higher),
            Case("lower and later", _lower_later),
            Case("falls and rises", _priority_falls),
            Case("0", _lowest),
            Case("200", _highest),
        ),
    ),
    Rule(
        "priority beyond",
        "6.2.3",
        "What a priority above 200 does is left open",
        (Case("201", _beyond, "ignores the packet", (TAKES_IT,), is_open=True),),
    ),
    Rule(
        "merge",
        "6.2.3",
        "How sources of one priority are merged is left open",
        (
            Case(
                "two sources",
                _merge,
                "the highest level of each slot",
                (FIRST, NEWEST, LAST),
                is_open=True,
            ),
        ),
    ),
    Rule(
        "number of sources",
        "6.2.3",
        "How many sources there may be is left open",
        (
            Case(
                f"{MOST_TRIED} sources",
                _all_sources,
                _count(OURS),
                (*COUNTS, NEWEST_OF_ALL),
                is_open=True,
            ),
        ),
    ),
    Rule(
        "lost sources",
        "6.7.1",
        "A source that is lost leaves room for another",
        (Case(f"{TIMES * AT_A_TIME} sources", _come_and_go),),
    ),
    Rule(
        "CID",
        "5.6",
        "A source is its CID, wherever it sends from",
        (_moved(SECOND_PORT, "another port"), _moved(SECOND_ADDRESS, "another address")),
    ),
    Rule(
        "source name",
        "6.2.2",
        "A name is for people, and identifies no source",
        (Case("another name", _named_anew), Case("any bytes", _name_of_any_bytes)),
    ),
    Rule(
        "universe",
        "6.2.7",
        "Data of another universe is not shown",
        (
            _other_universe(OF_ONE_BYTE, "another high byte"),
            _other_universe(OF_NONE, "another number"),
        ),
    ),
)
