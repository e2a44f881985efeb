"""Rules of one stream: its numbers, how long it lasts, how it ends, and what its options say."""

from cueplayer_tools.conform.packets import (
    FORCED,
    PREVIEW,
    TERMINATED,
    discovery_packet,
    synchronization_packet,
)
from cueplayer_tools.conform.script import Case, Rule, Script

HELD = "holds the last look"
RESERVED = 0x1F


def _numbers(first: int, second: int, about: str) -> Case:
    """Two packets of one source with these numbers."""

    def write(script: Script) -> None:
        one = script.source()
        one.send({1: 10}, number=first)
        script.look("the first packet")
        one.send({1: 20}, number=second)
        script.look(about)

    return Case(f"{first} then {second}", write)


def _wrap(script: Script) -> None:
    one = script.source()
    one.send({1: 10}, number=255)
    one.send({1: 20}, number=0)
    script.look("0 comes after 255")
    one.send({1: 30}, number=1)
    script.look("1 comes after 0")


def _own_numbers(script: Script) -> None:
    low, high = script.source(100), script.source(150)
    low.send({1: 10}, number=200)
    high.send({1: 20}, number=195)
    script.look("another source has numbers of its own")


def _stays(script: Script) -> None:
    script.source().send({1: 10})
    script.look("2.0 s after its last packet a source is there", 2000)


def _is_lost(script: Script) -> None:
    low, high = script.source(100), script.source(150)
    low.send({1: 10})
    high.send({2: 20})
    for _ in range(3):
        script.send(low.packet({1: 10}), wait=1000)
    script.look("3.3 s after its last packet a source is lost, and the other shows", 300)


def _goes_on(script: Script) -> None:
    one = script.source()
    one.send({1: 10})
    for _ in range(3):
        script.send(one.packet({1: 20}), wait=1500)
    script.look("a packet each 1.5 s keeps a source there", 1500)


def _lost_look(script: Script) -> None:
    one = script.source()
    one.send({1: 10})
    script.as_if(HELD, one.packet({1: 10}), wait=1500)
    script.as_if(HELD, one.packet({1: 10}), wait=1500)
    script.look("3.5 s after the last packet of the only source", 500)


COUNT = "numbers from before count"
COUNT_HELD = "numbers from before count, and the look is held"


def _numbers_after_loss(script: Script) -> None:
    one = script.source()
    one.send({1: 10}, number=100)
    for number in (101, 102):
        script.as_if(COUNT_HELD, one.packet({1: 10}, number=number), wait=1500)
    late = one.packet({1: 20}, number=95)
    script.send(late, wait=300, unheard=(COUNT, COUNT_HELD))
    script.look("a source that was lost for 3 s comes back with a lower number")


def _is_terminated(script: Script) -> None:
    low, high = script.source(100), script.source(150)
    low.send({1: 10})
    high.send({2: 20})
    high.end()
    low.send({1: 11})
    script.look("a source that ended does not show, and the next packet of another does")


WAITS_FOR_IT = "waits for the next packet of the other"


def _before_the_other_sends(script: Script) -> None:
    low, high = script.source(100), script.source(150)
    low.send({1: 10})
    high.send({2: 20})
    script.send(high.packet({}, options=TERMINATED), unheard=(WAITS_FOR_IT,))
    script.look("a source of lower priority has sent before, and not since")


def _ending_values(script: Script) -> None:
    one = script.source()
    one.send({1: 10})
    ending = one.packet({1: 99}, options=TERMINATED)
    script.send(ending, unheard=(HELD,))
    script.look("the slots of the packet that ends a stream are ignored")


def _begins_anew(script: Script) -> None:
    low, high = script.source(100), script.source(150)
    low.send({1: 10})
    high.send({2: 20})
    high.end()
    low.send({1: 11})
    script.send(high.packet({2: 30}), wait=100, unheard=("ignores it",))
    script.look("a source that ended its stream goes on at the next number")


def _late_after_the_end(script: Script) -> None:
    low, high = script.source(100), script.source(150)
    low.send({1: 10}, number=20)
    high.send({2: 20}, number=21)
    high.send({}, number=23, options=TERMINATED)
    low.send({1: 11}, number=24)
    late = high.packet({2: 30}, number=22)
    script.send(late)
    script.as_if("the stream begins again", late.but(number=25))
    script.look("a packet that the network brings after the end of its stream")


def _preview_alone(script: Script) -> None:
    low, high = script.source(100), script.source(150)
    low.send({1: 10})
    high.send({2: 20}, options=PREVIEW)
    script.look("a source of previews is not for the stage")


def _preview_between(script: Script) -> None:
    one = script.source()
    one.send({1: 10})
    one.send({1: 20}, options=PREVIEW)
    script.look("a preview between packets is not for the stage")


def _options(options: int, about: str) -> Case:
    def write(script: Script) -> None:
        one = script.source()
        one.send({1: 10})
        one.send({1: 20}, options=options)
        script.look(about)

    return Case(about, write)


WAITS = "waits for the synchronization packet"


def _never_synchronized(script: Script) -> None:
    one = script.source()
    one.send({1: 10})
    script.look("data without a synchronization address")
    packet = one.packet({1: 20}, synchronization=script.universe)
    script.send(packet, unheard=(WAITS,))
    script.look("data with an address, of which no synchronization packet ever came")


def _synchronization(script: Script) -> None:
    one = script.source()
    address = script.universe
    one.send({1: 10}, synchronization=address)
    script.send(synchronization_packet(one.cid, address, 1))
    packet = one.packet({1: 20}, synchronization=address)
    script.send(packet, unheard=(WAITS,))
    script.look("data with an address, after a first synchronization packet")
    script.send(synchronization_packet(one.cid, address, 2))
    script.as_if(WAITS, packet)
    script.look("the synchronization packet has come")


def _others_pass(script: Script) -> None:
    one = script.source()
    one.send({1: 10})
    script.send(discovery_packet(one.cid, [script.universe, script.universe + 1]))
    script.send(discovery_packet(script.source().cid, []))
    script.send(synchronization_packet(one.cid, script.universe, 1))
    script.look("discovery and synchronization packets bring no levels")
    one.send({1: 20})
    script.look("data after them is shown")


RULES = (
    Rule(
        "numbering",
        "6.7.2",
        "A packet whose number is 0 to 19 behind the last of its source is discarded",
        (
            _numbers(30, 30, "a packet that comes twice is shown once"),
            _numbers(30, 29, "1 behind is out of sequence"),
            _numbers(30, 11, "19 behind is out of sequence"),
        ),
    ),
    Rule(
        "numbering window",
        "6.7.2",
        "A packet whose number is 20 or more behind is a new one",
        (
            _numbers(30, 10, "20 behind is taken"),
            _numbers(100, 20, "80 behind is taken"),
        ),
    ),
    Rule(
        "numbering wrap",
        "6.7.2",
        "Number 0 comes after 255",
        (Case("0 after 255", _wrap), _numbers(5, 250, "250 is 11 behind 5")),
    ),
    Rule(
        "numbering by source",
        "6.7.2",
        "Each source has numbers of its own",
        (Case("two sources", _own_numbers),),
    ),
    Rule(
        "source stays",
        "6.7.1",
        "A source is not lost before 2.5 s without a packet",
        (Case("2.0 s", _stays), Case("1.5 s apart", _goes_on)),
    ),
    Rule(
        "source lost",
        "6.7.1",
        "A source is lost 2.5 s after its last packet",
        (Case("the other shows", _is_lost),),
    ),
    Rule(
        "look at loss",
        "6.7.1",
        "What is shown when the only source is lost is left open",
        (Case("the only source", _lost_look, "goes dark", (HELD,), is_open=True),),
    ),
    Rule(
        "numbers after a loss",
        "6.7.2",
        "Whether numbers from before a loss count is left open",
        (
            Case(
                "lower number",
                _numbers_after_loss,
                "takes any number",
                (COUNT, COUNT_HELD),
                is_open=True,
            ),
        ),
    ),
    Rule(
        "termination",
        "6.2.6",
        "Stream_Terminated ends a stream at once, and its slots are ignored",
        (
            Case("the other shows", _is_terminated),
            Case("values of the end", _ending_values, "goes dark", (HELD,)),
        ),
    ),
    Rule(
        "after a termination",
        "6.2.6",
        "What a receiver does with packets after an end is left open",
        (
            Case("goes on", _begins_anew, "takes it", ("ignores it",), is_open=True),
            Case(
                "a late packet",
                _late_after_the_end,
                "ignores it",
                ("the stream begins again",),
                is_open=True,
            ),
            Case(
                "the other source",
                _before_the_other_sends,
                "shows it at once",
                (WAITS_FOR_IT,),
                is_open=True,
            ),
        ),
    ),
    Rule(
        "preview",
        "6.2.6",
        "Preview_Data is not for the stage",
        (Case("a source of previews", _preview_alone), Case("between", _preview_between)),
    ),
    Rule(
        "reserved options",
        "6.2.6",
        "The reserved bits of the options are ignored",
        (_options(RESERVED, "reserved bits"), _options(0x10, "one reserved bit")),
    ),
    Rule(
        "forced synchronization",
        "6.2.6",
        "Force_Synchronization is for data with a synchronization address",
        (_options(FORCED, "without an address"),),
    ),
    Rule(
        "synchronization",
        "11",
        "Whether a receiver synchronizes is left open",
        (
            Case("never came", _never_synchronized, "shows it at once", (WAITS,), is_open=True),
            Case("came", _synchronization, "shows it at once", (WAITS,), is_open=True),
        ),
    ),
    Rule(
        "other packets",
        "5.5",
        "Discovery and synchronization packets bring no levels",
        (Case("both", _others_pass),),
    ),
)
