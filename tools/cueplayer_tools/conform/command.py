"""`tools/conform`: tries receivers and sources of E1.31 by the rules of the standard."""

import argparse
import contextlib
import datetime
import json
import os
import sys
import time
from collections.abc import Callable
from pathlib import Path

from cueplayer_tools.conform.baseline import baseline_in, differences
from cueplayer_tools.conform.capture import hear, open_listener
from cueplayer_tools.conform.captured import write_bytes, write_captures, write_heard, write_text
from cueplayer_tools.conform.command_words import chosen_words
from cueplayer_tools.conform.diagnoses import diagnoses_of, kept
from cueplayer_tools.conform.estimate import seconds_of
from cueplayer_tools.conform.junit import junit
from cueplayer_tools.conform.network import enter_own_network
from cueplayer_tools.conform.open_lighting import OpenLightingPeer
from cueplayer_tools.conform.page import page
from cueplayer_tools.conform.peers import (
    PORT,
    Clock,
    CommandPeer,
    OwnPeer,
    Peer,
    PeerFault,
    Sockets,
    SteppedClock,
)
from cueplayer_tools.conform.qlcplus import QlcPlusPeer
from cueplayer_tools.conform.report import Result, as_json, from_json, rules_found, table
from cueplayer_tools.conform.rounds import Setting, try_all
from cueplayer_tools.conform.rules import RULES
from cueplayer_tools.conform.source_rules import judged_source
from cueplayer_tools.conform.sources import (
    OpenLightingSource,
    OwnSource,
    PlayedSource,
    QlcPlusSource,
    player,
)
from cueplayer_tools.conform.streams import listening_of
from cueplayer_tools.conform.vectors import vectors_capture, vectors_json
from cueplayer_tools.conform.verdicts import Named
from cueplayer_tools.line_protocol import Refused, count_of, printable
from cueplayer_tools.program import run

SCRIPT = Path(__file__).resolve().parents[2] / "conform"
PEERS: dict[str, Callable[[], Peer]] = {
    "cueplayer": OwnPeer,
    "ola": OpenLightingPeer,
    "qlcplus": QlcPlusPeer,
}
SOURCES: dict[str, Callable[[], PlayedSource]] = {
    "cueplayer": OwnSource,
    "ola": OpenLightingSource,
    "qlcplus": QlcPlusSource,
}
LISTENS, PLAYS = 60.0, 16.0
# The exit statuses but 0.
BROKEN, UNTRIED, DIFFERS = 1, 2, 3


def _ourselves() -> str:
    version = run("--version").printed.splitlines()
    return version[0] if version else "cueplayer"


def _today() -> str:
    return datetime.date.today().isoformat()


def _tell_how_long(peer: Peer, cases: list[Named], tries: int, settle: int) -> None:
    """Some minutes without a word would look like a fault."""
    at_a_time = min(len(peer.universes), len(cases))
    count = count_of(len(cases), "case") + (" once more" if tries > 1 else "")
    seconds = max(1, round(seconds_of(peer, cases, settle)))
    told = f"{count}, {at_a_time} at a time, about {seconds} s"
    _warn(told)


def _warn(text: str) -> None:
    print(f"conform: {text}", file=sys.stderr)


def receiver_result(words: argparse.Namespace) -> Result:
    """Tries a receiver."""
    known: list[Peer] = []
    settle = int(words.settle)

    def start() -> Peer:
        if words.peer:
            peer = PEERS[words.peer]()
        else:
            host, port = words.to
            sockets = Sockets(host, port, words.card or "", words.second or "")
            peer = CommandPeer(words.command, words.universes, sockets)
        known.append(peer)
        return peer

    def tell(peer: Peer, cases: list[Named], tries: int) -> None:
        if not words.peer and cases:
            _tell_how_long(peer, cases, tries, settle)

    rules = tuple(each for each in RULES if not words.rule or each.name in words.rule)
    clock = SteppedClock() if words.peer == "cueplayer" else Clock()
    begun = time.time_ns()
    salt = f"{begun}/{os.getpid()}"
    tried = try_all(Setting(start, clock, settle, salt, words.patience, tell, _warn), rules)
    peer, found = known[0], rules_found(tried.verdicts)
    if words.pcap:
        write_captures(words.pcap, tried.played + tried.cut_off, peer.route, begun // 1000)
    told = kept(diagnoses_of(tried), words.keep)
    return Result("receiver", peer.name, peer.version, _today(), _ourselves(), found, told)


def source_result(words: argparse.Namespace) -> Result:
    """Listens to a source, one of these or the user's."""
    source = SOURCES[words.peer]() if words.peer else None
    seconds = words.seconds or (PLAYS if source else LISTENS)
    begun = time.time()
    if source is not None:
        name, version = source.name, source.version
        with contextlib.closing(source):
            came = hear(source.listener, seconds, player(source, seconds))
    else:
        host, port = words.at or ("0.0.0.0", PORT)
        with open_listener(host, port, words.universes, words.card) as listener:
            came = hear(listener, seconds)
    if words.of:
        came = [each for each in came if each.sender[0] == words.of[0]]
    if words.pcap:
        write_heard(words.pcap, came)
    packets = listening_of(came, begun, time.time())
    if not packets.packets:
        raise Refused(f"no data packet came within {seconds:g} s")
    if source is None:
        first = packets.packets[0]
        shown = printable(first.name.partition(b"\0")[0])
        name, version = f"{shown} at {first.heard.sender[0]}", "unknown"
    rules = judged_source(packets)
    return Result("source", name, version, _today(), _ourselves(), rules)


def results_in(text: str) -> list[Result]:
    """The results that `--json` printed, one behind the other."""
    found, reader = [], json.JSONDecoder()
    while text := text.lstrip():
        said, end = reader.raw_decode(text)
        found.append(from_json(said))
        text = text[end:]
    return found


def read_results(file: str) -> list[Result]:
    try:
        return results_in(Path(file).read_text())
    except OSError as fault:
        raise Refused(f"{file}: {fault.strerror}") from fault
    except (ValueError, KeyError, TypeError) as fault:
        raise Refused(f"{file}: no results of tools/conform --json") from fault


def _tried(chosen: argparse.Namespace, words: list[str]) -> int:
    """Tries a receiver or a source, and tells what came of it."""
    if chosen.peer in ("ola", "qlcplus"):
        enter_own_network(SCRIPT, words)
    known = read_results(chosen.baseline) if chosen.baseline else []
    result = receiver_result(chosen) if chosen.kind == "receiver" else source_result(chosen)
    before = baseline_in(known, result, chosen.baseline) if known else result
    differs = differences(result, before)
    if chosen.junit:
        write_text(chosen.junit, junit(result, differs))
    if chosen.json:
        told = as_json(result)
        told |= {"differs": [vars(each) for each in differs]} if known else {}
        print(json.dumps(told, indent=1))
    else:
        print(table(result))
        print("".join(f"other than before: {each.line()}\n" for each in differs), end="")
    if result.is_broken:
        return BROKEN
    return UNTRIED if not result.is_tried else DIFFERS if differs else 0


def _write_vectors(chosen: argparse.Namespace) -> int:
    if chosen.json:
        write_text(chosen.json, vectors_json(_ourselves()))
    if chosen.pcap:
        write_bytes(chosen.pcap, vectors_capture())
    return 0


def main(words: list[str]) -> int:
    """Runs the tool with these words, and answers its exit status."""
    chosen = chosen_words(words)
    try:
        if chosen.kind == "page":
            results = [each for file in chosen.results for each in read_results(file)]
            print(page(results), end="")
            return 0
        if chosen.kind == "vectors":
            return _write_vectors(chosen)
        return _tried(chosen, words)
    except (Refused, PeerFault) as fault:
        _warn(str(fault))
        return UNTRIED
    except KeyboardInterrupt:
        return 130
