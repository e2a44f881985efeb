"""The words of `tools/watch`."""

import argparse
import re

from cueplayer_tools.addresses import port_number
from cueplayer_tools.line_protocol import Refused, printable
from cueplayer_tools.tool_parser import ToolParser
from cueplayer_tools.watch.group_socket import PORT

MOST_UNIVERSES = 16
TOP_UNIVERSE = 63_999
ABOUT = "Shows who sends what on which universe, as the proved receiver sees it."
EXAMPLES = (
    "tools/watch 1-4 --interface eth0   what comes to this machine by a card, on a screen",
    "tools/watch night.pcapng           a capture of tshark, tcpdump or Wireshark; - is a pipe",
)
_UNIVERSES = r"(\d{1,5})(?:-(\d{1,5}))?"


def universes_of(words: list[str]) -> list[int]:
    """The universes that words name, as `1` and `1-4`; Refused where they are none, or too
    many."""
    numbers: list[int] = []
    for word in words:
        found = re.fullmatch(_UNIVERSES, word, re.ASCII)
        if not found:
            raise Refused(f"not a universe: {printable(word)}")
        first, last = int(found[1]), int(found[2] or found[1])
        if not 1 <= first <= last <= TOP_UNIVERSE:
            raise Refused(f"a universe is a number from 1 to {TOP_UNIVERSE}: {printable(word)}")
        numbers += range(first, min(last, first + MOST_UNIVERSES) + 1)
    if len(numbers) > MOST_UNIVERSES:
        raise Refused(f"a watch has at most {MOST_UNIVERSES} universes")
    if len(set(numbers)) < len(numbers):
        raise Refused("a watch names a universe once")
    return numbers


def seconds(word: str) -> float:
    """A time in seconds, up to a day."""
    if re.fullmatch(r"\d{1,5}(\.\d{1,3})?", word, re.ASCII) and float(word) <= 86_400:
        return float(word)
    raise argparse.ArgumentTypeError(f"not a time: {printable(word)}")


def _parser() -> argparse.ArgumentParser:
    parser = ToolParser("watch", ABOUT, EXAMPLES)
    add = parser.add_argument
    named = "a universe, as 1, or several, as 1-4; of a capture, by default all"
    add("universes", metavar="UNIVERSE", nargs="*", help=named)
    add("--interface", metavar="CARD", help="the card to join groups by: its name or address")
    add("--port", type=port_number, default=PORT, help=f"the port of the datagrams ({PORT})")
    once = "watch for that long, print who sends what, and end"
    add("--once", metavar="SECONDS", type=seconds, help=once)
    add("--lines", action="store_true", help="print lines on a terminal too")
    add("--json", action="store_true", help="print a JSON object for each line, or each universe")
    record = "keep what came, for cueplayer watch; FILE.pcapng is a capture"
    add("--record", metavar="FILE", help=record)
    add("--script", metavar="FILE", help="keep what came, for cueplayer rehearse")
    return parser


def parse_words(words: list[str]) -> argparse.Namespace:
    """The words of the command line; `capture` is the file that they name, or None."""
    parser = _parser()
    chosen = parser.parse_args(words)
    first = next(iter(chosen.universes), None)
    chosen.capture = None
    if first is not None and not re.match(r"\d+(-|$)", first):
        chosen.capture = chosen.universes.pop(0)
    elif first is None:
        parser.error("name a universe, as 1, or a capture")
    return chosen
