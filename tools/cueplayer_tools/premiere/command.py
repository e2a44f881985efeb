"""`cueplayer premiere`: one command from a show file to a night that goes on whatever is killed,
and a tablet to play it from."""

import argparse
import shlex
import shutil
import signal
import socket
import sys
import uuid
from pathlib import Path

from cueplayer_tools.addresses import Address
from cueplayer_tools.asking import answer_to, is_at_terminal, says_yes
from cueplayer_tools.console_cid import console_cid
from cueplayer_tools.cue_list import Show, read_show
from cueplayer_tools.desk.command import SWITCH_EVERY, read_words, run_desk
from cueplayer_tools.desk.doors import PinDoor
from cueplayer_tools.desk.network import (
    NETWORK_NAMES,
    USUAL_PORT,
    add_network,
    check_network,
    tls_context,
)
from cueplayer_tools.desk.pins import Role
from cueplayer_tools.keeper.consoles import await_free
from cueplayer_tools.line_protocol import Refused, count_of
from cueplayer_tools.own_addresses import is_public, own_addresses
from cueplayer_tools.premiere.night import Premiere, named, usual_folder
from cueplayer_tools.premiere.show import LightLost, Made, made_show
from cueplayer_tools.program import program
from cueplayer_tools.targets import target
from cueplayer_tools.teller import Teller, leave_all
from cueplayer_tools.tool_parser import ToolParser

# What is said of a night whose record cannot be taken up, with the cue in which it goes on.
_STARTS_AGAIN = ": the night starts again "

ABOUT = """\
Plays a show tonight: checks it, or converts another console's export, begins a night with a spare
and a record, and serves a page to play it from by a PIN."""
EXAMPLES = ("cueplayer premiere hamlet.asc --to 239.255.0.0",)
# The status where `convert` has one of its own for what was lost.
LIGHT_LOST = 3
# The words of `live` that are handed on.
LIVE_VALUES = ("interface", "priority", "base", "name", "ttl")


def _parser() -> argparse.ArgumentParser:
    parser = ToolParser("cueplayer premiere", ABOUT, EXAMPLES)
    add = parser.add_argument
    add("show", metavar="SHOW", help="a show file, or another console's export")
    to = "where to send, as for `live`: 239.255.0.0 is multicast, for all nodes; once or more"
    add("--to", metavar="TARGET", action="append", required=True, help=to)
    night = "the folder of the night; by default SHOW-night, beside the show"
    add("--night", metavar="FOLDER", type=Path, help=night)
    anyway = "play an export of which light was lost in the conversion"
    add("--anyway", action="store_true", help=anyway)
    cid = "this console's own; by default the one in ~/.config/cueplayer/cid"
    add("--cid", metavar="UUID", type=uuid.UUID, help=cid)
    add("--interface", metavar="CARD", help="as for `live`: the network card to send by")
    add("--any-route", action="store_true", help="as for `live`")
    for name, value in (("priority", "P"), ("base", "U"), ("name", "TEXT"), ("ttl", "HOPS")):
        add(f"--{name}", metavar=value, help="as for `live`")
    add_network(parser)
    return parser


def _read(words: list[str]) -> argparse.Namespace:
    parser = _parser()
    chosen = parser.parse_args(words)
    try:
        for word in chosen.to:
            target(word)
    except argparse.ArgumentTypeError as fault:
        parser.error(f"--to: {fault}")
    check_network(parser, chosen)
    return chosen


def _live_words(chosen: argparse.Namespace) -> list[str]:
    words = ["--cid", str(chosen.cid)]
    for word in chosen.to:
        words += ["--to", word]
    for name in LIVE_VALUES:
        if (value := getattr(chosen, name)) is not None:
            words += [f"--{name}", value]
    return [*words, "--any-route"] if chosen.any_route else words


def _page_host() -> str | None:
    """The address of this machine for the page; None where no network has one. Where there are
    several it is asked."""
    found = [
        (host, card)
        for host, card in own_addresses().items()
        if not host.startswith("127.") and not is_public(host)
    ]
    if len(found) < 2:
        return found[0][0] if found else None
    listed = [f"{number}: {host} ({card})" for number, (host, card) in enumerate(found, 1)]
    if not is_at_terminal():
        raise Refused(f"name the address for the tablet by --listen: {', '.join(listed)}")
    question = f"premiere: the tablet's network: {', '.join(listed)}; which number? "
    number = answer_to(question, tuple(str(each) for each in range(1, len(found) + 1)))
    return found[int(number) - 1][0]


def _page(chosen: argparse.Namespace) -> Address | None:
    """Where the page for the tablet is; Refused where it cannot be."""
    tls_context(chosen)
    address: Address | None = chosen.listen
    if address is None:
        host = _page_host()
        address = None if host is None else (host, USUAL_PORT)
    if address is not None and address[1]:
        with socket.socket() as tried:
            tried.setsockopt(socket.SOL_SOCKET, socket.SO_REUSEADDR, 1)
            try:
                tried.bind(address)
                tried.listen()
            except OSError as fault:
                told = f"the page cannot be at {address[0]}:{address[1]}: {fault.strerror}"
                told += "; if it is there already, open it; --listen names another address or port"
                raise Refused(told) from fault
    return address


def _way(chosen: argparse.Namespace, show: Show) -> str:
    """What is sent, and where to."""
    base = chosen.base or "1"
    first = int(base) if base.isdecimal() and len(base) < 6 else 1
    universes = " ".join(map(str, show.universes(first))) or "none: no dimmer is patched"
    groups = " (multicast, a group for each universe)"
    told = [word + groups * target(word).is_groups() for word in chosen.to]
    card = f" by {chosen.interface}" if chosen.interface else ""
    return f"sends universes {universes} to {', '.join(told)}{card}"


def _tell(text: str) -> None:
    """Tells what comes before the page: no night waits for it."""
    print(f"premiere: {text}", file=sys.stderr, flush=True)


def _refuse_second(chosen: argparse.Namespace) -> None:
    """No night begins beside another `live` of its CID."""
    chosen.cid = chosen.cid or console_cid(_tell)
    if (other := await_free(str(chosen.cid))) is not None:
        told = f"process {other} plays live under this CID already: `kill {other}` ends it"
        raise Refused(told)


def _begin(
    chosen: argparse.Namespace, night: Premiere, made: Made, page: Address | None
) -> None:
    """Begins a new night, once the operator agrees."""
    known = read_show("-", made.content)
    at = "on this machine alone" if page is None else f"at http://{page[0]}:{page[1]}/ by a PIN"
    told = f"{count_of(len(known.cues), 'cue')}; {_way(chosen, known)}; the page is {at}"
    question = f"premiere: {told}\npremiere: y begins the night, dark; n sends nothing: "
    if not is_at_terminal():
        _tell(told)
    elif not says_yes(question):
        raise Refused("nothing was begun")
    _hold_interrupts()
    show = night.keep_show(chosen.show, made)
    for line in night.start(str(show), *_live_words(chosen)):
        if line.startswith(("sends: ", "from ", "other cards: ", "no route to ", "target: ")):
            _tell(line)


def _hold_interrupts() -> None:
    """From here on a night begins: control-C would leave it half begun, until the desk heeds it."""
    signal.signal(signal.SIGINT, lambda *_: None)


def _go_on(night: Premiere) -> None:
    """Takes hold of the night in the folder, which nothing played has to notice."""
    if night.is_played():
        _tell(f"the night in {named(night.path)} is played: this is one more desk for it")
    else:
        told = f"the night in {named(night.path)} broke off at {night.when()}; it sends to "
        told += ", ".join(night.folder.words().to)
        ask = f"premiere: {told}\npremiere: y goes on where it was; n sends nothing: "
        if not is_at_terminal():
            _tell(f"{told}, and goes on where it was; --night FOLDER begins another")
        elif not says_yes(ask):
            raise Refused("nothing was sent: --night FOLDER names a folder for a new night")
    _hold_interrupts()
    if not night.folder.is_kept():
        for line in night.start():
            if _STARTS_AGAIN in line:
                _tell(line)
    night.await_live()


def _next_steps(night: Premiere, door: PinDoor | None, command: list[str]) -> list[str]:
    """What the operator has to know, in five lines."""
    if door is None:
        page = "open the address above in a browser on this machine: no network has a page"
    else:
        pins = door.pins.pins
        page = f"open {door.address} on the tablet; PIN {pins[Role.PLAY]} plays, "
        page += f"{pins[Role.WATCH]} only watches"
    return [
        f"page:   {page}",
        "begin:  GO plays the next cue; before the first one the stage is dark",
        f"if this program dies, the light stays; to come back: {shlex.join(command)}",
        f"end:    hold `End the night`, under More, or type {night.command('end')}",
        f"record: {night.path / 'record'}; what happened stands in {night.path / 'replies'}",
    ]


def _farewell(night: Premiere, command: list[str]) -> str:
    """What is true of the night when the desk has been left."""
    if night.folder.has_ended():
        return f"the night has ended; its record is {night.path / 'record'}"
    again, end = shlex.join(command), night.command("end")
    return f"the night goes on without this desk; {again} comes back to it, {end} ends it"


def _play(chosen: argparse.Namespace, command: list[str], tell: Teller, tell_out: Teller) -> int:
    night = Premiere((chosen.night or usual_folder(chosen.show)).absolute())
    is_new = not night.is_played() and not night.broke_off()
    made = made_show(chosen.show, chosen.anyway, _tell) if is_new else None
    page = _page(chosen)
    if made is None:
        _go_on(night)
    else:
        _refuse_second(chosen)
        _begin(chosen, night, made, page)
    words = read_words(["--night", str(night.path)])
    vars(words).update({name: getattr(chosen, name) for name in NETWORK_NAMES}, listen=page)
    try:
        return run_desk(
            words, tell, tell_out,
            lambda door: tell_out("\n".join(_next_steps(night, door, command))),
        )  # fmt: skip
    finally:
        tell_out(_farewell(night, command))


def main(words: list[str]) -> int:
    """Runs the tool with these words, and answers its exit status."""
    chosen = _read(words)
    sys.setswitchinterval(SWITCH_EVERY)
    tell, tell_out = Teller(sys.stderr, "desk: "), Teller(sys.stdout)
    command = ["cueplayer" if shutil.which("cueplayer") else program(), "premiere", *words]
    status = 1
    try:
        status = _play(chosen, command, tell, tell_out)
    except (Refused, argparse.ArgumentTypeError) as fault:
        status = LIGHT_LOST if isinstance(fault, LightLost) else 1
        _tell(str(fault))
    except KeyboardInterrupt:
        _tell("nothing was begun")
    except OSError as fault:
        _tell(f"cannot begin: {fault.strerror or fault}")
    return leave_all(status, tell, tell_out)
