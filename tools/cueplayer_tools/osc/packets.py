"""Open Sound Control 1.0: what a datagram says, or why it is refused; and datagrams of one's own.

A datagram is a message or a bundle; all of it is read before anything of it counts, so a fault in
one message of a bundle refuses them all. The time tag of a bundle is not waited for: what comes is
carried out when it comes.
"""

import struct
from collections.abc import Iterator
from dataclasses import dataclass

from cueplayer_tools.line_protocol import Refused, printable

DEEPEST_BUNDLE = 8
BUNDLE = b"#bundle\0"
# Type tags with data in the datagram: those of the standard that are numbers, and its 64 bit ones.
_NUMBERS = {"i": struct.Struct(">i"), "f": struct.Struct(">f"), "h": struct.Struct(">q"),
            "d": struct.Struct(">d")}
# Type tags without data, as many tablets send for buttons.
_CONSTANTS = {"T": True, "F": False, "I": True}

Argument = int | float | str | bool


@dataclass(frozen=True)
class Message:
    """One message: its address and its arguments."""

    address: str
    arguments: tuple[Argument, ...]


class _Reader:
    """The bytes of one message, taken from the front."""

    def __init__(self, data: bytes) -> None:
        self.data = data
        self.at = 0

    def is_empty(self) -> bool:
        return self.at == len(self.data)

    def string(self, what: str) -> str:
        """Bytes up to a zero byte, which zeros fill up to a multiple of four."""
        end = self.data.find(b"\0", self.at)
        if end < 0:
            raise Refused(f"{what} without an end")
        after = end + 4 - (end - self.at) % 4
        if after > len(self.data) or any(self.data[end:after]):
            raise Refused(f"{what} without its padding")
        text = self.data[self.at : end].decode("latin-1")
        self.at = after
        return text

    def number(self, tag: str) -> int | float:
        form = _NUMBERS[tag]
        if self.at + form.size > len(self.data):
            raise Refused("an argument is cut off")
        value: int | float = form.unpack_from(self.data, self.at)[0]
        self.at += form.size
        return value


def _arguments(reader: _Reader) -> Iterator[Argument]:
    # Old senders leave the type tags away; then there is no telling what arguments are.
    if reader.is_empty():
        return
    tags = reader.string("type tags")
    if not tags.startswith(","):
        raise Refused("no type tags")
    for tag in tags[1:]:
        if tag in _NUMBERS:
            yield reader.number(tag)
        elif tag in ("s", "S"):
            yield reader.string("a string")
        elif tag in _CONSTANTS:
            yield _CONSTANTS[tag]
        else:
            raise Refused(f"an argument of type {printable(tag)}")


def _message(data: bytes) -> Message:
    reader = _Reader(data)
    address = reader.string("an address")
    if not address.startswith("/"):
        raise Refused("no address")
    arguments = tuple(_arguments(reader))
    if not reader.is_empty():
        raise Refused(f"bytes are left over after {printable(address)}")
    return Message(address, arguments)


def _elements(data: bytes) -> Iterator[bytes]:
    """The elements of a bundle, each behind its size."""
    if len(data) < len(BUNDLE) + 8:
        raise Refused("a bundle is cut off")
    at = len(BUNDLE) + 8
    while at < len(data):
        size = int.from_bytes(data[at : at + 4], "big")
        at += 4
        if size % 4 or not 0 < size <= len(data) - at:
            raise Refused("a bundle's element has no such size")
        yield data[at : at + size]
        at += size


def messages_of(data: bytes, depth: int = 0) -> list[Message]:
    """The messages of a datagram, in their order; Refused where any part of it is malformed."""
    if not data:
        raise Refused("an empty datagram")
    if len(data) % 4:
        raise Refused("a size that is no multiple of four")
    if not data.startswith(BUNDLE):
        return [_message(data)]
    if depth == DEEPEST_BUNDLE:
        raise Refused("bundles within bundles, too deep")
    return [found for element in _elements(data) for found in messages_of(element, depth + 1)]


def _pad(text: str) -> bytes:
    data = text.encode().replace(b"\0", b"")
    return data + bytes(4 - len(data) % 4)


def pack(address: str, *arguments: Argument) -> bytes:
    """A datagram with one message: texts in UTF-8, numbers as int32 or float32."""
    tags, data = ",", b""
    for argument in arguments:
        if isinstance(argument, str):
            tags, data = tags + "s", data + _pad(argument)
        elif isinstance(argument, float):
            tags, data = tags + "f", data + struct.pack(">f", argument)
        else:
            tags, data = tags + "i", data + struct.pack(">i", min(argument, 0x7FFF_FFFF))
    return _pad(address) + _pad(tags) + data
