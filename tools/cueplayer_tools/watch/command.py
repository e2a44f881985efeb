"""`tools/watch`: shows who sends what on which universe, as the proved receiver sees it."""

import argparse
import copy
import json
import math
import os
import select
import signal
import sys
import time
from collections.abc import Callable, Iterator
from dataclasses import dataclass
from functools import partial

from cueplayer_tools.line_protocol import Refused
from cueplayer_tools.watch.feed import Feed
from cueplayer_tools.watch.files import AnyKept, Came, Capture, Record, Script
from cueplayer_tools.watch.group_socket import Card, WatchSocket
from cueplayer_tools.watch.json_lines import event, in_json, tables
from cueplayer_tools.watch.rates import Rates
from cueplayer_tools.watch.replay import Replay, opened, universes_in
from cueplayer_tools.watch.screen import Screen
from cueplayer_tools.watch.state import Watched
from cueplayer_tools.watch.told import LOOK, Told, came_of
from cueplayer_tools.watch.view import View, picture, summary
from cueplayer_tools.watch.words import MOST_UNIVERSES, parse_words, universes_of

# Seconds between two counts.
SECOND = 1.0
# How the name of a capture ends.
CAPTURE = ".pcapng"
# Datagrams that are taken before anything else is looked at.
MOST_AT_ONCE = 256


@dataclass(kw_only=True)
class Watch(Told):
    """A watch that runs: what comes to a socket, by the clock."""

    socket: WatchSocket
    # Seconds of which the packets are counted.
    every: float = SECOND

    def __post_init__(self) -> None:
        self.start = self.second = time.monotonic()
        self.moment = 0
        self.poll = select.poll()
        self.poll.register(self.feed.output, select.POLLIN)

    def wait(self, keyboard: int | None) -> set[int]:
        """Waits for a datagram, a line, a key or the next look; the files that are ready."""
        receives = 0 if self.feed.is_full() else select.POLLIN
        self.poll.register(self.socket, receives)
        self.poll.register(self.feed.input, select.POLLOUT if self.feed.waiting else 0)
        if keyboard is not None:
            self.poll.register(keyboard, select.POLLIN)
        return {file for file, _ in self.poll.poll(LOOK - self._now() % LOOK)}

    def turn(self, ready: set[int]) -> bool:
        """Takes what has come; whether the program still runs."""
        self.tick()
        if self.socket.fileno() in ready and not self.feed.is_full():
            self.give(self._came())
        if self.feed.waiting:
            self.feed.push()
        lines = self.feed.new_lines() if self.feed.output in ready else []
        for line in lines or []:
            self.tell(line)
        return lines is not None

    def _now(self) -> int:
        return int((time.monotonic() - self.start) * 1000)

    def tick(self) -> None:
        """Gives the clock where a tenth of a second has begun, and counts each second."""
        before, self.moment = self.moment, self._now()
        if before // LOOK != self.moment // LOOK:
            self.clock(self.moment)
            for kept in self.kept:
                kept.flush()
        if time.monotonic() - self.second >= self.every:
            self.count()

    def count(self) -> None:
        """Ends the seconds of which packets are counted."""
        now = time.monotonic()
        self.rates.end_second(max(now - self.second, 0.001))
        self.second = now
        new = self.socket.newly_dropped()
        self.dropped += new
        if new:
            self.print_line(f"{self.moment} 0 dropped {new}")

    def _came(self) -> Iterator[Came]:
        """The datagrams that have come, each with this moment."""
        for _ in range(MOST_AT_ONCE):
            came = self.socket.next()
            if came is None:
                return
            data, sender, to = came
            yield came_of(self.moment, data, sender, (to, self.socket.port))


def print_out(line: str) -> None:
    """Prints a line at once."""
    print(line, flush=True)


def silent(line: str) -> None:
    """Prints nothing."""


class Over:
    """Whether the watch is to end: by control-C or SIGTERM, which interrupt no line. A second one
    interrupts what waits for a reader that stands still."""

    def __init__(self) -> None:
        self.is_set = False
        for number in (signal.SIGINT, signal.SIGTERM):
            signal.signal(number, self._set)

    def _set(self, number: int, frame: object) -> None:
        self.is_set = True
        signal.signal(number, signal.default_int_handler)


def follow(watch: Watch, until: float, over: Over) -> bool:
    """Goes on until a time, or the end; whether the program ran so long."""
    while time.monotonic() < until and not over.is_set:
        if not watch.turn(watch.wait(None)):
            return False
    return True


def show(watch: Watch, over: Over) -> bool:
    """Shows a screen until `q` or the end; whether the program ran so long."""
    screen = Screen()
    view = View(list(watch.watched.universes))
    frozen: tuple[Watched, Rates] | None = None
    drawn = -1
    try:
        while not over.is_set:
            ready = watch.wait(screen.keyboard)
            if not watch.turn(ready):
                return False
            typed = screen.keys() if screen.keyboard in ready else []
            if not all([view.key(key) for key in typed]):
                return True
            if not view.is_frozen:
                frozen = None
            elif frozen is None:
                frozen = copy.deepcopy(watch.watched), copy.copy(watch.rates)
            if typed or watch.moment // LOOK != drawn:
                drawn = watch.moment // LOOK
                watched, rates = frozen or (watch.watched, watch.rates)
                screen.draw(picture(watched, rates, watch.dropped, view, screen.size()))
        return True
    finally:
        screen.leave()


def complain(text: str) -> None:
    """Tells on standard error."""
    print(f"watch: {text}", file=sys.stderr, flush=True)


def print_line_of(chosen: argparse.Namespace, is_quiet: bool) -> Callable[[str], None]:
    """What prints each line that is told."""
    if is_quiet:
        return silent
    return in_json(print_out) if chosen.json else print_out


def kept_of(chosen: argparse.Namespace, universes: list[int]) -> list[AnyKept]:
    """The files that keep what comes; Refused where one cannot be made."""
    kept: list[AnyKept] = []
    if chosen.record is not None and chosen.record.endswith(CAPTURE):
        kept.append(Capture(chosen.record, complain))
    elif chosen.record is not None:
        kept.append(Record(chosen.record, universes, complain))
    if chosen.script is not None:
        kept.append(Script(chosen.script, universes, complain))
    return kept


def open_watch(chosen: argparse.Namespace, universes: list[int], is_quiet: bool) -> Watch:
    """The watch that the words ask for; Refused or OSError where it cannot begin."""
    receiver = WatchSocket(universes, Card(chosen.interface), chosen.port)
    if receiver.lacking:
        complain(f"{receiver.lacking}; only unicast is heard: name a network card by --interface")
    every = SECOND if chosen.once is None else math.inf
    kept, print_line = kept_of(chosen, universes), print_line_of(chosen, is_quiet)
    told = Feed(universes), kept, Watched(universes), print_line
    return Watch(*told, socket=receiver, every=every)


def run(chosen: argparse.Namespace, over: Over) -> int:
    """Watches as the words ask for; the exit status."""
    has_screen = chosen.once is None and not is_for_programs(chosen) and sys.stdin.isatty()
    is_quiet = has_screen or chosen.once is not None
    watch = open_watch(chosen, universes_of(chosen.universes), is_quiet)
    until = math.inf if chosen.once is None else watch.start + chosen.once

    def follows() -> bool:
        ran = show(watch, over) if has_screen else follow(watch, until, over)
        if chosen.once is not None:
            watch.count()
        return ran

    return tell_all(chosen, watch, follows, chosen.once is not None)


def replay(chosen: argparse.Namespace) -> int:
    """Watches a capture; the exit status."""
    universes = universes_of(chosen.universes) or universes_in(
        chosen.capture, chosen.port, MOST_UNIVERSES
    )
    has_table = chosen.once is not None or not is_for_programs(chosen)
    kept, print_line = kept_of(chosen, universes), print_line_of(chosen, has_table)
    told = Told(Feed(universes), kept, Watched(universes), print_line)
    longest = math.inf if chosen.once is None else 1000 * chosen.once
    with opened(chosen.capture) as file:
        reads = partial(Replay(told, chosen.port, longest).run, file)
        return tell_all(chosen, told, reads, has_table)


def tell_all(
    chosen: argparse.Namespace, told: Told, follows: Callable[[], bool], has_table: bool
) -> int:
    """Follows a watch to its end, and tells what there is to tell then; the exit status."""
    try:
        ran = follows()
        told.end()
        print("\n".join(last_lines(chosen, told, has_table)), flush=True)
    except (BrokenPipeError, KeyboardInterrupt, Refused):
        told.feed.stop()
        raise
    if not ran:
        complain("cueplayer watch ended by itself: what it printed is above")
        return 1
    return 0


def is_for_programs(chosen: argparse.Namespace) -> bool:
    """Whether lines are printed, and no screen or table for people."""
    return chosen.lines or chosen.json or not sys.stdout.isatty()


def last_lines(chosen: argparse.Namespace, told: Told, has_table: bool) -> list[str]:
    """What is printed at the end: who sends what, or the slots."""
    if not has_table:
        lines = told.last_slots()
        return [json.dumps(event(line)) for line in lines] if chosen.json else lines
    table = tables if chosen.json else summary
    return table(told.watched, told.rates, told.dropped)


def main(words: list[str]) -> int:
    """Runs the tool with these words, and answers its exit status."""
    chosen = parse_words(words)
    try:
        over = Over()
        return replay(chosen) if chosen.capture else run(chosen, over)
    except Refused as fault:
        complain(str(fault))
        return 2
    except (BrokenPipeError, KeyboardInterrupt):
        # Nobody reads any more: what is left to print has no place.
        os.dup2(os.open(os.devnull, os.O_WRONLY), 1)
        return 0
    except OSError as fault:
        complain(f"cannot watch at port {chosen.port}: {fault.strerror}")
        return 1
