"""The words of `tools/conform`."""

import argparse
import re
from collections.abc import Callable

from cueplayer_tools.conform.peers import PORT
from cueplayer_tools.conform.rules import RULES
from cueplayer_tools.conform.script import SETTLE
from cueplayer_tools.tool_parser import ToolParser

ABOUT = "Tries receivers and sources of E1.31 by the rules of the standard."
EXAMPLES = ("tools/conform receiver ola", "tools/conform source --at 192.168.1.5 --universes 1-4")

MOST_UNIVERSES = 100
PEERS = ("cueplayer", "ola", "qlcplus")
# How long a receiver that ended is waited for, in seconds.
PATIENCE = 20.0
KINDS = ("receiver", "source", "vectors", "page")


def address_word(word: str) -> tuple[str, int]:
    """`ADDR` or `ADDR:PORT`."""
    found = re.fullmatch(r"(\d{1,3}(?:\.\d{1,3}){3})(?::(\d{1,5}))?", word, re.ASCII)
    if found and all(int(part) < 256 for part in found[1].split(".")):
        port = int(found[2] or PORT)
        if port < 65_536:
            return found[1], port
    raise argparse.ArgumentTypeError(f"not an IPv4 address: {word!r}")


def host_word(word: str) -> str:
    """`ADDR`, without a port."""
    if ":" in word:
        raise argparse.ArgumentTypeError(f"the address of a card has no port: {word!r}")
    return address_word(word)[0]


def universes_word(word: str) -> range:
    """`U`, or `F-L`: a universe, or all from one to another."""
    found = re.fullmatch(r"(\d{1,5})(?:-(\d{1,5}))?", word, re.ASCII)
    if found:
        first = int(found[1])
        last = int(found[2] or first)
        if 1 <= first <= last <= 63_999 and last - first < MOST_UNIVERSES:
            return range(first, last + 1)
    told = f"not a universe, or a range of at most {MOST_UNIVERSES}: {word!r}"
    raise argparse.ArgumentTypeError(told)


def _number(least: float, most: float) -> Callable[[str], float]:
    def read(word: str) -> float:
        if re.fullmatch(r"\d{1,6}(\.\d{1,3})?", word, re.ASCII) and least <= float(word) <= most:
            return float(word)
        raise argparse.ArgumentTypeError(f"not a number from {least:g} to {most:g}: {word!r}")

    return read


def _add_peer(kind: argparse.ArgumentParser) -> None:
    add = kind.add_argument
    add("peer", metavar="PEER", nargs="?", choices=PEERS, help=", ".join(PEERS))
    add("--json", action="store_true", help="prints the result as JSON")
    add("--junit", metavar="FILE", help="writes the result as JUnit XML")
    add("--pcap", metavar="FILE", help="writes what was sent or heard, as pcapng; for a receiver "
        "a name that does not end in .pcapng is a folder, with a file for each case")  # fmt: skip
    add("--baseline", metavar="FILE", help="tells what is other than in this result of --json")


def _add_node(kind: argparse.ArgumentParser) -> None:
    """Where a receiver of the user's is, and what reads it."""
    add = kind.add_argument
    add("--command", metavar="COMMAND",
        help="prints a slots line of what your receiver shows of the universe {universe}"
    )  # fmt: skip
    add("--to", metavar="ADDR", type=address_word, default=("127.0.0.1", PORT),
        help="where your receiver listens; 239.255.0.0 is the group of each universe"
    )  # fmt: skip
    add("--universes", metavar="F-L", type=universes_word, default=range(1, 2),
        help="which universes it may be tried in; the more, the quicker"
    )  # fmt: skip
    add("--card", metavar="ADDR", type=host_word, help="the address of the card that sends")
    add("--second", metavar="ADDR", type=host_word,
        help="another address of this machine, for a source that moves to it"
    )  # fmt: skip
    add("--settle", metavar="MS", type=_number(SETTLE, 1000), default=SETTLE,
        help="how long your receiver may take to show what came"
    )  # fmt: skip


def _receiver_words(kinds: "argparse._SubParsersAction[argparse.ArgumentParser]") -> None:
    kind = kinds.add_parser("receiver", help="sends cases to a receiver, and looks at its slots")
    _add_peer(kind)
    _add_node(kind)
    kind.add_argument(
        "--rule", metavar="RULE", action="append", default=[],
        choices=[rule.name for rule in RULES], help="tries this rule alone"
    )  # fmt: skip
    kind.add_argument(
        "--keep", metavar="FOLDER", default="", help="keeps the packets that ended your receiver"
    )  # fmt: skip
    kind.add_argument(
        "--patience", metavar="N", type=_number(0, 3600), default=PATIENCE,
        help="how many seconds to wait for a receiver that ended"
    )  # fmt: skip


def _source_words(kinds: "argparse._SubParsersAction[argparse.ArgumentParser]") -> None:
    kind = kinds.add_parser("source", help="listens to a source while you play")
    _add_peer(kind)
    add = kind.add_argument
    add("--at", metavar="ADDR", type=address_word, help="where to listen")
    add("--universes", metavar="F-L", type=universes_word, default=(), help="whose groups to join")
    add("--card", metavar="ADDR", type=host_word, default="0.0.0.0",
        help="the address of the card that joins")  # fmt: skip
    add("--of", metavar="ADDR", type=address_word, help="hears this sender alone")
    add("--seconds", metavar="N", type=_number(1, 3600), help="how long to listen")


def _check(parser: argparse.ArgumentParser, words: argparse.Namespace) -> None:
    """What the parser cannot say."""
    told = ", ".join(PEERS)
    if words.kind == "receiver" and bool(words.peer) == bool(words.command):
        parser.error(f"receiver: name a peer ({told}), or a --command")
    if words.kind == "vectors" and not (words.json or words.pcap):
        parser.error("vectors: name a file, --json FILE or --pcap FILE")
    if words.kind == "source" and bool(words.peer) == bool(words.at or words.universes):
        parser.error(f"source: name a peer ({told}), or where to listen")


def chosen_words(words: list[str]) -> argparse.Namespace:
    """What the words ask for; ends where they are refused."""
    parser = ToolParser("conform", ABOUT, EXAMPLES)
    kinds = parser.add_subparsers(
        required=True,
        metavar="|".join(KINDS),
        dest="kind",
        parser_class=argparse.ArgumentParser,
    )
    _receiver_words(kinds)
    _source_words(kinds)
    kind = kinds.add_parser("vectors", help="writes the cases for tests of your own")
    kind.add_argument("--json", metavar="FILE", help="as JSON, with what is right after each")
    kind.add_argument("--pcap", metavar="FILE", help="as pcapng")
    kind = kinds.add_parser("page", help="makes a page of results that --json printed")
    kind.add_argument("results", metavar="FILE", nargs="+")
    chosen = parser.parse_args(words)
    _check(parser, chosen)
    return chosen
