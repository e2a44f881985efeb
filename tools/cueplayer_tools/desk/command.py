"""`tools/desk`: runs `live`, or plays a night that is kept, and serves a page to play it from."""

import argparse
import os
import re
import select
import signal
import socket
import sys
import threading
import time
import uuid
from collections.abc import Callable
from pathlib import Path

from cueplayer_tools.addresses import bound_socket
from cueplayer_tools.console_cid import console_cid
from cueplayer_tools.cue_list import Show, read_show
from cueplayer_tools.desk.doors import PinDoor, WordDoor
from cueplayer_tools.desk.folder import FolderNight
from cueplayer_tools.desk.heard import HeardNight
from cueplayer_tools.desk.levels import LevelReader, Way
from cueplayer_tools.desk.looks import BlindLooks
from cueplayer_tools.desk.network import (
    add_midi,
    add_network,
    check_needs,
    check_network,
    pin_door,
    tell_door,
    warnings,
)
from cueplayer_tools.desk.night import Night
from cueplayer_tools.desk.press import USUAL_DOUBLE_GO, MoveGuard
from cueplayer_tools.desk.record import choose_record, played_record
from cueplayer_tools.desk.server import DeskServer
from cueplayer_tools.desk.view import show_view
from cueplayer_tools.desk.watch import USUAL_PRIORITY
from cueplayer_tools.keeper.consoles import await_free
from cueplayer_tools.line_protocol import Refused
from cueplayer_tools.midi.port import MidiPort
from cueplayer_tools.midi.show import Wanted
from cueplayer_tools.night_folder import NightFolder
from cueplayer_tools.osc.feedback import Feedback
from cueplayer_tools.osc.port import OscPort
from cueplayer_tools.targets import target
from cueplayer_tools.teller import Teller, leave_all
from cueplayer_tools.tool_parser import ToolParser

ABOUT = "Runs `live`, or plays a night that is kept, and serves a page to play it from."
EXAMPLES = (
    "tools/desk hamlet.asc --to 239.255.0.0 --interface eth0",
    "tools/desk --night tonight --listen 192.168.1.5",
)

# How long a second control-C counts, and how long `live` may take to end.
SECOND_PRESS = 3.0
END_PATIENCE = 10.0
WATCH_EVERY = 0.05
SWITCH_EVERY = 0.0005
# Between two looks at what came by Open Sound Control: a flood leaves the pages their time.
OSC_EVERY = 0.002
# Of what `live` prints: hours of it, where its disk stands still.
MOST_REPLIES = 100_000
MOST_DOUBLE_GO = 10_000
# Words of `live`, which a desk on another's night does not take.
NIGHT_WORDS = (
    *("show", "to", "interface", "any_route", "ttl", "name", "cid", "priority", "base"),
    *("record", "no_record", "resume", "replies"),
)


def _parser() -> argparse.ArgumentParser:
    parser = ToolParser("desk", ABOUT, EXAMPLES)
    parser.add_argument("show", metavar="SHOW", nargs="?")
    _add_way(parser)
    parser.add_argument(
        "--night",
        metavar="NIGHT",
        help="play the night that `cueplayer-night NIGHT` keeps going, with its own options",
    )
    parser.add_argument(
        "--cid",
        metavar="UUID",
        type=uuid.UUID,
        help="this console's own; by default the one in ~/.config/cueplayer/cid",
    )
    parser.add_argument("--name", metavar="TEXT", help="as for `live`")
    parser.add_argument("--priority", metavar="P", help="as for `live`")
    parser.add_argument("--base", metavar="U", type=int, help="as for `live`")
    _add_record(parser)
    parser.add_argument(
        "--replies",
        metavar="FILE",
        type=argparse.FileType("x"),
        help="a new file, which gets what `live` prints",
    )
    _add_page(parser)
    return parser


def _add_record(parser: argparse.ArgumentParser) -> None:
    """The options of the night's record."""
    parser.add_argument(
        "--record",
        metavar="FILE",
        help="a new file; by default one beside the show, with the date and the time in its name",
    )
    parser.add_argument(
        "--no-record", action="store_const", const=True, help="keep none: nothing can go on then"
    )
    parser.add_argument(
        "--resume",
        action="store_const",
        const=True,
        help="go on with the night of --record, or of the show's newest record",
    )


def _add_way(parser: argparse.ArgumentParser) -> None:
    """The options that say where the packets go, and by which card."""
    parser.add_argument(
        "--to",
        metavar="TARGET",
        action="append",
        help="as for `live`, once or more: an address, or 3=ADDR or 1-8=ADDR for these universes",
    )
    parser.add_argument(
        "--interface", metavar="CARD", help="as for `live`; the levels are received by it too"
    )
    parser.add_argument("--any-route", action="store_const", const=True, help="as for `live`")
    parser.add_argument("--ttl", metavar="HOPS", help="as for `live`")


def _add_page(parser: argparse.ArgumentParser) -> None:
    """The options of the page, also where the night is another's."""
    add_network(parser)
    add_midi(parser)
    parser.add_argument(
        "--double-go",
        metavar="MS",
        type=_milliseconds,
        default=round(USUAL_DOUBLE_GO * 1000),
        help="refuse a second GO within this many milliseconds (400); 0 accepts each",
    )
    parser.add_argument(
        "--grid",
        action="store_true",
        help="receive the levels at --to too, which is an address of this machine",
    )


def _milliseconds(word: str) -> int:
    """A time of at most ten seconds."""
    if re.fullmatch(r"\d{1,5}", word, re.ASCII) and int(word) <= MOST_DOUBLE_GO:
        return int(word)
    raise argparse.ArgumentTypeError(f"not a time from 0 to {MOST_DOUBLE_GO} ms: {word!r}")


def read_words(words: list[str]) -> argparse.Namespace:
    """The words of a desk that runs `live`, or of one that takes hold of a night."""
    parser = _parser()
    chosen = parser.parse_args(words)
    check_network(parser, chosen)
    check_needs(parser, chosen)
    if chosen.night is not None:
        named = [name for name in NIGHT_WORDS if getattr(chosen, name) is not None]
        given = [name.replace("_", "-") for name in named]
        if given:
            parser.error(f"--night has the options of its night: leave out {', '.join(given)}")
    elif chosen.show is None or chosen.to is None:
        parser.error("a new night needs SHOW and --to; --night NIGHT plays one that is kept")
    elif chosen.no_record and (chosen.record or chosen.resume):
        parser.error("--no-record goes with neither --record nor --resume")
    chosen.command = [sys.argv[0], *words]
    return chosen


def _live_words(words: argparse.Namespace) -> list[str]:
    live = [words.show, "--cid", str(words.cid), "--base", str(words.base)]
    for word in words.to:
        live += ["--to", word]
    live += ["--any-route"] if words.any_route else []
    live += ["--resume"] if words.resume else []
    for name in ("interface", "ttl", "name", "priority", "record"):
        value = getattr(words, name)
        if value is not None:
            live += [f"--{name}", value]
    return live


def _priority(words: argparse.Namespace) -> int:
    """The night's own priority. `live` refuses a word that is none."""
    word = words.priority or ""
    return int(word) if re.fullmatch(r"\d{1,3}", word, re.ASCII) else USUAL_PRIORITY


def _replies(words: argparse.Namespace, tell: Teller) -> Teller:
    """What keeps the lines that `live` prints."""
    kept = words.replies or open(os.devnull, "w", encoding="ascii")
    return Teller(kept, "", MOST_REPLIES, lambda text: tell(f"replies: {text}"))


def _take_osc(night: HeardNight, receiver: socket.socket) -> None:
    """Takes Open Sound Control as `tools/osc` does, and tells those who ask what changes."""
    port = OscPort(receiver, lambda text: night.refuse(f"OSC: {text}", "osc"))
    feedback = Feedback(night, receiver)
    port.ask = feedback.ask
    threading.Thread(target=feedback.serve, daemon=True).start()
    poll = select.poll()
    poll.register(port, select.POLLIN)
    while True:
        patience = port.patience()
        poll.poll(None if patience is None else 1 + int(patience * 1000))
        port.take(night.give)
        time.sleep(OSC_EVERY)


def _take_others(night: HeardNight, receiver: socket.socket | None, midi: MidiPort | None) -> None:
    """Takes what comes beside the pages, from here on."""
    if receiver is not None:
        threading.Thread(target=_take_osc, args=(night, receiver), daemon=True).start()
    if midi is not None:
        midi.tell = night.refuse
        threading.Thread(target=midi.serve, args=(night.give,), daemon=True).start()


def _midi(words: argparse.Namespace, tell: Teller) -> MidiPort | None:
    if words.midi is None:
        return None
    wanted = Wanted(words.midi_device, words.midi_go, words.midi_back)
    return MidiPort(words.midi, wanted, lambda text, kind: tell(text))


class _Presses:
    """Control-C: the first is asked about, the second ends the night. Where the night is another's
    the first leaves it."""

    def __init__(self, tell: Teller, is_own: bool) -> None:
        self.tell = tell
        self.latest = -SECOND_PRESS
        self.is_asked_for = is_own
        self.is_over = False

    def press(self, *_: object) -> None:
        now = time.monotonic()
        self.is_over = not self.is_asked_for or now - self.latest < SECOND_PRESS
        self.latest = now
        if not self.is_over:
            self.tell("the night goes on; control-C once more ends it, and the light goes out")

    def leave(self, *_: object) -> None:
        self.is_over = True


def _watch(night: HeardNight, server: DeskServer, presses: _Presses) -> None:
    """Until the desk is left: watches the night, and tells when `live` ends. Where nobody has
    opened the page, there is nobody to be told by it."""
    is_told = False
    while not presses.is_over:
        night.watch()
        if night.state.status is not None and not is_told:
            is_told, presses.is_asked_for = True, False
            presses.is_over = not server.pages.was_opened
            presses.tell(f"live has ended with status {night.state.status}")
        elif is_told and night.state.status is None:
            # It was taken up.
            is_told, presses.is_asked_for = False, True
        time.sleep(WATCH_EVERY)


def _refuse_second(words: argparse.Namespace) -> None:
    """No night of the desk's own begins beside another `live` of its CID."""
    other = await_free(str(words.cid))
    if other is not None:
        told = f"process {other} plays live under this CID already: `kill {other}` ends it"
        raise Refused(told + played_record(words))


def _complete(words: argparse.Namespace) -> NightFolder | None:
    """Gives the words those of its night; the folder of a night that others keep."""
    folder = None if words.night is None else NightFolder(words.night)
    if folder is not None:
        vars(words).update(vars(folder.words()))
    words.base = 1 if words.base is None else words.base
    return folder


def _heed_signals(presses: _Presses) -> None:
    signal.signal(signal.SIGINT, presses.press)
    signal.signal(signal.SIGTERM, presses.leave)
    # A terminal that is closed by mistake does not put out the light.
    signal.signal(signal.SIGHUP, signal.SIG_IGN)


def _night(
    words: argparse.Namespace, folder: NightFolder | None, show: Show, told: tuple[Teller, Teller]
) -> HeardNight:
    """The night: one of the desk's own, or that of a folder. What is told of it, and its replies,
    go to these two."""
    tell, replies = told
    if folder is None:
        night: HeardNight = Night(show, _live_words(words), tell, replies)
    else:
        night = FolderNight(show, folder, tell)
    night.guard = MoveGuard(words.double_go / 1000)
    return night


def _tell_start(
    words: argparse.Namespace, server: DeskServer, live: str, told: tuple[Teller, Teller]
) -> None:
    """Tells where the page is, and who may come."""
    tell, tell_address = told
    tell_address(f"desk: {server.here.address}")
    tell(f"console {words.cid}, live is process {live}")
    if server.elsewhere is not None:
        server.picture = tell_door(server.elsewhere, tell_address)
    for line in warnings(words):
        tell(line)


def run_desk(
    words: argparse.Namespace,
    tell: Teller,
    tell_address: Teller,
    tell_more: Callable[[PinDoor | None], None] = lambda door: None,
) -> int:
    """The desk of one night; the status of `live`, or 0 where the night is another's. Once it has
    told where its page is, `tell_more` may go on with what belongs to it."""
    folder = _complete(words)
    show = read_show(words.show)
    way = Way([target(word) for word in words.to], words.interface, words.grid, _priority(words))
    if folder is None:
        choose_record(words, tell)
        words.cid = words.cid or console_cid(tell)
        _refuse_second(words)
    server = DeskServer(WordDoor(words.port), pin_door(words, tell), tell)
    receiver = None if words.osc is None else bound_socket(words.osc)
    osc = None if receiver is None else "{}:{}".format(*receiver.getsockname())
    midi = _midi(words, tell)
    presses = _Presses(tell, is_own=folder is None)
    _heed_signals(presses)
    # Listens before the night begins, so that its first packets are heard.
    levels = LevelReader(way, words.cid, show.universes(words.base))
    replies = _replies(words, tell)
    night = _night(words, folder, show, (tell, replies))
    try:
        _tell_start(words, server, night.live(), (tell, tell_address))
        tell_more(server.elsewhere)
        night.read()
        levels.read(night.wake)
        looks = BlindLooks(words.show, show, words.base)
        called = vars(words).get("called") or Path(words.show).name
        server.show(night, levels, show_view(show, called, words.base, osc), looks)
        _take_others(night, receiver, midi)
        _watch(night, server, presses)
    finally:
        # Whatever happened, no `live` of its own is left behind that nobody can play.
        status = night.end(END_PATIENCE)
        # The night is over: one press more would only hide its status.
        signal.signal(signal.SIGINT, signal.SIG_IGN)
        replies.leave()
    return status


def main(words: list[str]) -> int:
    """Runs the tool with these words, and answers its exit status."""
    chosen = read_words(words)
    # A thread that reads what attackers send hands the interpreter on this soon, not after 5 ms.
    sys.setswitchinterval(SWITCH_EVERY)
    tell, tell_address = Teller(sys.stderr, "desk: "), Teller(sys.stdout)
    status = 1
    try:
        status = run_desk(chosen, tell, tell_address)
    except (Refused, argparse.ArgumentTypeError) as fault:
        tell(str(fault))
    except OSError as fault:
        tell(f"cannot start: {fault.strerror}")
    return leave_all(status, tell, tell_address)
