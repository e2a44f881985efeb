"""Rules of the packet: its fields, its lengths, its slots and its START code."""

from collections.abc import Callable

from cueplayer_tools.conform.packets import DataPacket
from cueplayer_tools.conform.script import Case, Rule, Script

TAKES_IT = "takes it"
CUT_HEADERS = (0, 1, 4, 16, 22, 38, 44, 100, 125)


def _spoil(name: str, about: str, **fields: object) -> Case:
    """A packet with a field that must not be."""

    def write(script: Script) -> None:
        one = script.source()
        one.send({1: 10})
        one.send({1: 20}, **fields)
        script.look(about)
        one.send({1: 30})
        script.look("the next packet is shown")

    return Case(name, write)


def _field(name: str, clause: str, asks: str, **cases: dict[str, object]) -> Rule:
    """A rule of one field, and values that it must not have."""
    found = (
        _spoil(case.replace("_", " "), f"{name} is wrong", **fields)
        for case, fields in cases.items()
    )
    return Rule(name, clause, asks, tuple(found))


def _left_open(name: str, spoil: Callable[[DataPacket], DataPacket | bytes]) -> Case:
    """A packet of which the standard does not say what a receiver does with it."""

    def write(script: Script) -> None:
        one = script.source()
        one.send({1: 10})
        script.look("the packet before")
        packet = one.packet({1: 20, 2: 21})
        script.send(spoil(packet))
        script.as_if(TAKES_IT, packet)
        script.look(name)

    return Case(name, write, "ignores it", (TAKES_IT,), is_open=True)


def _few(count: int) -> Case:
    def write(script: Script) -> None:
        one = script.source()
        one.send({1: 10}, slots=bytes(range(10, 10 + count % 200)).ljust(count, b"\x07"))
        script.look(f"a first packet of {count} slots")

    return Case("1 slot" if count == 1 else f"{count} slots", write)


KEEPS = "keeps the slots that it does not have"


def _fewer(count: int) -> Case:
    def write(script: Script) -> None:
        one = script.source()
        whole = one.packet({1: 10, 2: 11, 300: 77})
        script.send(whole)
        fewer = one.packet({}, slots=bytes([20, 21])[:count])
        script.send(fewer)
        kept = fewer.slots + whole.slots[count:]
        script.as_if(KEEPS, fewer.but(slots=kept, number=fewer.number + 1))
        script.look(f"{count} slots after a packet of 512")

    plain = "the others are 0"
    return Case(f"{count} after 512", write, plain, (KEEPS,), is_open=True)


def _extra_bytes(script: Script) -> None:
    one = script.source()
    one.send({1: 10})
    packet = one.packet({1: 20})
    script.send(packet.to_bytes() + b"\xff" * 4, unheard=("ignores the packet",))
    script.look("four bytes after the end of a packet")


def _start_code(code: int) -> Case:
    return _spoil(f"{code:02x}", f"START code {code:02x} is not for levels", start_code=code)


def _cut(script: Script) -> None:
    one = script.source()
    one.send({1: 10})
    packet = one.packet({1: 20}).to_bytes()
    for length in CUT_HEADERS:
        script.send(packet[:length])
    script.look("datagrams that end before their slots")
    one.send({1: 30})
    script.look("the next packet is shown")


RULES = (
    _field(
        "preamble size",
        "5.1",
        "A packet with a preamble size other than 0010 is discarded",
        greater={"preamble": 0x0011},
        zero={"preamble": 0},
    ),
    _field(
        "packet identifier",
        "5.3",
        "A packet with another ACN packet identifier is discarded",
        another_number={"identifier": b"ASC-E1.18\0\0\0"},
        another_end={"identifier": b"ASC-E1.17\0\0\1"},
    ),
    _field(
        "root vector",
        "5.5",
        "A packet with an unknown root vector is discarded",
        another={"root_vector": 5},
        another_high_byte={"root_vector": 0x01000004},
    ),
    _field(
        "framing vector",
        "6.2.1",
        "A packet with another framing vector is no data packet",
        another={"framing_vector": 3},
        another_high_byte={"framing_vector": 0x01000002},
    ),
    _field(
        "DMP vector",
        "7.2",
        "Data with another DMP vector is discarded",
        another={"dmp_vector": 3},
    ),
    _field(
        "address type",
        "7.3",
        "Data with another address and data type is discarded",
        another={"address_type": 0xA2},
        another_address={"address_type": 0x21},
    ),
    _field(
        "first address",
        "7.4",
        "Data with a first property address other than 0 is discarded",
        one={"first_address": 1},
    ),
    _field(
        "address increment",
        "7.5",
        "Data with an address increment other than 1 is discarded",
        two={"increment": 2},
    ),
    Rule(
        "START code",
        "7.7",
        "Data with a START code other than 0 brings no levels (E1.11)",
        tuple(map(_start_code, (0xDD, 0xCC, 0x17, 0xCF, 0x01))),
    ),
    Rule(
        "number of slots",
        "7.6",
        "A packet has 1 to 512 slots",
        tuple(map(_few, (1, 3, 24, 511, 512))),
    ),
    Rule(
        "cut datagrams",
        "4.1",
        "A datagram shorter than a header is no packet",
        (Case("in the header", _cut),),
    ),
    Rule(
        "fewer slots than before",
        "7.7",
        "What happens to slots that a packet does not have is left open",
        (_fewer(2), _fewer(0)),
    ),
    Rule(
        "post-amble size",
        "5.2",
        "A post-amble size other than 0 should be discarded",
        (_left_open("0004", lambda packet: packet.but(postamble=4)),),
    ),
    Rule(
        "flags and lengths",
        "5.4, 6.1, 7.1",
        "What happens with lengths that disagree is left open",
        (
            _left_open("root flags", lambda packet: packet.but(root_length=0x626E)),
            _left_open("framing flags", lambda packet: packet.but(framing_length=0x6258)),
            _left_open("DMP flags", lambda packet: packet.but(dmp_length=0x620B)),
            _left_open("root too short", lambda packet: packet.but(root_length=0x7200)),
            _left_open("root too long", lambda packet: packet.but(root_length=0x7300)),
            _left_open("framing too short", lambda packet: packet.but(framing_length=0x7200)),
            _left_open("framing too long", lambda packet: packet.but(framing_length=0x7300)),
            _left_open("DMP too short", lambda packet: packet.but(dmp_length=0x7100)),
            _left_open("DMP too long", lambda packet: packet.but(dmp_length=0x7300)),
            _left_open("count too small", lambda packet: packet.but(count=0x0100)),
            _left_open("count too great", lambda packet: packet.but(count=0x0202)),
            _left_open("count 0", lambda packet: packet.but(count=0)),
            _left_open("cut in its slots", lambda packet: packet.to_bytes()[:300]),
        ),
    ),
    Rule(
        "bytes after the packet",
        "5.4",
        "What happens with bytes after a packet is left open",
        (Case("four", _extra_bytes, "ignores the bytes", ("ignores the packet",), is_open=True),),
    ),
)
