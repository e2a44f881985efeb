"""What an Open Sound Control message asks of the console, as a line of `live`."""

import math
import re

from cueplayer_tools.line_protocol import (
    Refused,
    cue_word,
    level_word,
    milliseconds_of,
    printable,
    record_number,
    thousandths_of,
    time_word,
)
from cueplayer_tools.osc.packets import Argument, Message, messages_of

PREFIX = "/cueplayer/"
# How the addresses begin that mean something here: ours, and of those that other makers document
# QLab's `/go` and `/cue/NUMBER/start`, and Eos's `/eos/cue/LIST/NUMBER/fire`.
FRONTS = (PREFIX, "/go\0", "/cue/", "/eos/cue/")
# There is one list.
LIST = "1"
BUTTONS = ("go", "back", "end")
# Far above the greatest cue number, and far below what has no thousandths any more.
GREATEST = 1e6
_DECIMAL = re.compile(r"\d{1,9}(\.\d{1,9})?|\.\d{1,9}", re.ASCII)


def _number(argument: Argument) -> float:
    """The value of an argument, a string too, where it is a number from 0."""
    if isinstance(argument, str):
        if not _DECIMAL.fullmatch(argument):
            raise Refused(f"not a number: {printable(argument)}")
        return float(argument)
    value = float(argument)
    if not math.isfinite(value) or value < 0:
        raise Refused(f"not a number from 0: {value:g}")
    return value


def _is_pressed(arguments: tuple[Argument, ...]) -> bool:
    """Whether a button is pressed: without an argument, or by one that is not 0."""
    if len(arguments) > 1:
        raise Refused("more than one argument")
    return not arguments or _number(arguments[0]) > 0


def _only(arguments: tuple[Argument, ...]) -> Argument:
    if len(arguments) != 1:
        raise Refused(f"{len(arguments)} arguments instead of one")
    return arguments[0]


def _spelling(argument: Argument, what: str, places: int) -> str:
    """A number as text: a string spells it; a float has it to so many decimal places."""
    if isinstance(argument, bool):
        raise Refused(f"not {what}")
    if isinstance(argument, str):
        return argument
    number = _number(argument)
    if number > GREATEST:
        raise Refused(f"not {what}: {number:g}")
    whole, part = divmod(math.floor(number * 10**places + 0.5), 10**places)
    return f"{whole}.{part:0{places}}"


def _cue(argument: Argument) -> str:
    """A cue number: a float has it as near as a float can."""
    return cue_word(thousandths_of(_spelling(argument, "a cue number", 3)))


def _time(argument: Argument) -> str:
    """A time: a float has seconds, to the nearest hundredth."""
    return time_word(milliseconds_of(_spelling(argument, "a time", 2)))


def _usual_line(message: Message) -> str | None:
    """The line of an address that show control programs use."""
    match message.address.split("/"):
        case ["", "go"]:
            line = "go"
        case ["", "cue", number, "start"]:
            line = f"goto {cue_word(thousandths_of(number))}"
        case ["", "eos", "cue", cue_list, number, "fire"]:
            if cue_list != LIST:
                raise Refused(f"no cue list {printable(cue_list)}: there is only list {LIST}")
            line = f"goto {cue_word(thousandths_of(number))}"
        case _:
            raise Refused("no such address")
    return line if _is_pressed(message.arguments) else None


def line_of(message: Message) -> str | None:
    """The line that a message asks for; None at the release of a button."""
    arguments = message.arguments
    if not message.address.startswith(PREFIX):
        return _usual_line(message)
    match message.address.removeprefix(PREFIX).split("/"):
        case [button] if button in BUTTONS:
            return button if _is_pressed(arguments) else None
        case ["goto"]:
            return f"goto {_cue(_only(arguments))}"
        case ["goto", number]:
            cue = cue_word(thousandths_of(number))
            return f"goto {cue}" if _is_pressed(arguments) else None
        case ["goto", number, "in"]:
            return f"goto {cue_word(thousandths_of(number))} in {_time(_only(arguments))}"
        case ["goto", number, "in", word]:
            line = f"goto {cue_word(thousandths_of(number))} in {_time(word)}"
            return line if _is_pressed(arguments) else None
        case [("sub" | "group") as kind, number]:
            level = level_word(_number(_only(arguments)))
            return f"{kind} {record_number(number)} {level}"
        case ["master"]:
            return f"master {level_word(_number(_only(arguments)))}"
    raise Refused("no such address")


def lines_of(datagram: bytes) -> tuple[list[str], list[str]]:
    """The lines of a datagram, and what is refused of it, each named in printable characters."""
    try:
        messages = messages_of(datagram)
    except Refused as refusal:
        return [], [f"{refusal}: {printable(datagram)}" if datagram else str(refusal)]
    lines, refused = [], []
    for message in messages:
        try:
            line = line_of(message)
        except Refused as refusal:
            refused.append(f"{printable(message.address)}: {refusal}")
        else:
            if line is not None:
                lines.append(line)
    return lines, refused
