"""`tools/storm`: shows what the audience sees of a night in a network that loses packets."""

import argparse
import json
import re
import sys
from collections.abc import Callable
from itertools import count
from pathlib import Path

from cueplayer_tools.cue_list import read_show
from cueplayer_tools.line_protocol import Refused, text_of
from cueplayer_tools.record import read_record
from cueplayer_tools.storm.network import HELD_BACK, Network, Outage
from cueplayer_tools.storm.night import (
    GRID,
    MOST_CONSOLES,
    RECORD_HEAD,
    Console,
    Plan,
    part_of,
    plan_of,
    with_ticks,
)
from cueplayer_tools.storm.report import data, fault_words, report
from cueplayer_tools.storm.seen import Keep
from cueplayer_tools.storm.sweep import Found, Rate, Sweep, blown, rate_data, sweep_table, swept
from cueplayer_tools.tool_parser import ToolParser

ABOUT = "Shows what the audience sees of a night in a network that loses packets."
EXAMPLES = ("tools/storm hamlet.asc tonight/record --loss 2 --reorder 5",)

BROKEN = 1
REFUSED = 2
MOST_FAULTS = 10


def whole(word: str) -> int:
    if re.fullmatch(r"\d{1,12}", word, re.ASCII):
        return int(word)
    raise argparse.ArgumentTypeError(f"not a number: {word!r}")


def percents(word: str) -> float:
    """A share, given in percent."""
    if re.fullmatch(r"\d{1,3}(\.\d{1,6})?", word, re.ASCII) and float(word) <= 100:
        return float(word) / 100
    raise argparse.ArgumentTypeError(f"not a percent, 0 to 100: {word!r}")


def losses(word: str) -> list[float]:
    return [percents(each) for each in word.split(",")]


def console_of(word: str) -> Console:
    """`PRIORITY`, or `PRIORITY+MS`."""
    found = re.fullmatch(r"(\d{1,3})(?:\+(\d{1,3}))?", word, re.ASCII)
    if found and int(found[1]) <= 200:
        return Console(int(found[1]), int(found[2] or 0))
    raise argparse.ArgumentTypeError(f"not a console, such as 100 or 90+5: {word!r}")


def delay_of(word: str) -> tuple[int, int]:
    """`MS`, or `LEAST-MOST`."""
    found = re.fullmatch(r"(\d{1,6})(?:-(\d{1,6}))?", word, re.ASCII)
    if found and int(found[1]) <= int(found[2] or found[1]):
        return int(found[1]), int(found[2] or found[1])
    raise argparse.ArgumentTypeError(f"not a delay, such as 3 or 1-40: {word!r}")


def held_of(word: str) -> tuple[float, int]:
    """`PERCENT`, or `PERCENT:MS`."""
    share, colon, time = word.partition(":")
    return percents(share), whole(time) if colon else HELD_BACK


def times_of(word: str) -> tuple[int, int]:
    """`FROM-UNTIL`."""
    found = re.fullmatch(r"(\d{1,12})-(\d{1,12})", word, re.ASCII)
    if found and int(found[1]) < int(found[2]):
        return int(found[1]), int(found[2])
    raise argparse.ArgumentTypeError(f"not two times, such as 60000-64000: {word!r}")


def _with_number(word: str) -> tuple[int, tuple[int, int]]:
    number, colon, times = word.partition(":")
    if not colon:
        told = f"not a number and two times, such as 1:60000-64000: {word!r}"
        raise argparse.ArgumentTypeError(told)
    return whole(number), times_of(times)


def cable_of(word: str) -> Outage:
    """`CONSOLE:FROM-UNTIL`."""
    console, times = _with_number(word)
    return Outage(*times, console=console)


def node_of(word: str) -> Outage:
    """`UNIVERSE:FROM-UNTIL`."""
    universe, times = _with_number(word)
    return Outage(*times, universe=universe)


def switch_of(word: str) -> Outage:
    return Outage(*times_of(word))


def _add_night(parser: argparse.ArgumentParser) -> None:
    parser.add_argument("show", metavar="SHOW")
    parser.add_argument("night", metavar="NIGHT", help="a record, or lines of `play`")
    parser.add_argument("--base", metavar="U", type=whole, default=1)
    parser.add_argument(
        "--every", metavar="MS", type=whole,
        help="add ticks this far apart between lines that have none; 25 if the night is no record",
    )  # fmt: skip
    parser.add_argument("--from", metavar="MS", dest="first", type=whole, help="the first tick")
    parser.add_argument("--until", metavar="MS", type=whole, help="the last line")
    parser.add_argument(
        "--console", metavar="P[+MS]", type=console_of, action="append", default=[],
        help="a console's priority, and how late it takes each line; up to four; one of 100",
    )  # fmt: skip


def _add_network(parser: argparse.ArgumentParser) -> None:
    add = parser.add_argument
    add("--seed", metavar="N", type=whole, default=1, help="the seed of the network's chance; 1")
    add("--loss", metavar="PERCENT", type=percents, default=0.0, help="packets that never come")
    add("--burst", metavar="MS", type=whole, default=0,
        help="lose packets in bursts of this mean length, not one by one")  # fmt: skip
    add("--repeat", metavar="PERCENT", type=percents, default=0.0, help="packets that come twice")
    add("--delay", metavar="MS[-MS]", type=delay_of, default=(0, 0), help="how long a packet takes")
    add("--reorder", metavar="PERCENT[:MS]", type=held_of, default=(0.0, HELD_BACK),
        help=f"packets that are held back, and how long; {HELD_BACK} ms")  # fmt: skip
    outages: tuple[tuple[str, str, Callable[[str], Outage], str], ...] = (
        ("--cable", "C:MS-MS", cable_of, "console C's cable is out"),
        ("--node", "U:MS-MS", node_of, "universe U's cable is out"),
        ("--switch", "MS-MS", switch_of, "the switch is out"),
    )
    for name, form, outage_of, text in outages:
        add(name, metavar=form, action="append", default=[], dest="outages", help=text,
            type=outage_of)  # fmt: skip


def add_storm(parser: argparse.ArgumentParser) -> None:
    """The words that say which night it is, and what its network does."""
    _add_night(parser)
    _add_network(parser)
    parser.add_argument(
        "--sweep", metavar="PERCENT,..", type=losses,
        help="the same night at each of these rates of loss",
    )  # fmt: skip
    parser.add_argument(
        "--nights", metavar="N", type=whole, default=1,
        help="this many nights, or for each rate of a sweep, each with the next seed; the median "
        "of all, and their least and most",
    )  # fmt: skip


def network_of(words: argparse.Namespace, plan: Plan) -> Network:
    """What the network does; its outages are of consoles and universes that there are."""
    consoles = len(words.console) or 1
    for each in words.outages:
        if each.console is not None and each.console >= consoles:
            raise Refused(f"no console {each.console}: the last one is {consoles - 1}")
        if each.universe is not None and each.universe not in plan.sent:
            raise Refused(f"universe {each.universe} is not sent")
    least, most = words.delay
    share, held = words.reorder
    return Network(
        words.seed, words.loss, words.burst, words.repeat, least, most, share, held,
        tuple(words.outages),
    )  # fmt: skip


def consoles_of(words: argparse.Namespace) -> list[Console]:
    if len(words.console) > MOST_CONSOLES:
        raise Refused(f"a rehearsal has {MOST_CONSOLES} consoles at most")
    return words.console or [Console(100)]


def plan_of_words(words: argparse.Namespace) -> Plan:
    """What a console does that takes the lines of the night."""
    show, text = read_show(words.show), text_of(words.night)
    given = part_of(read_record(text), None, words.until)
    if not given:
        raise Refused("the night has no lines")
    last = max(line.moment for line in given)
    every = words.every or (None if text.startswith(RECORD_HEAD) else GRID)
    if every is not None:
        given = with_ticks(given, show, every, words.until)
    plan = plan_of(words.show, part_of(given, words.first, words.until), show, words.base)
    if every is not None and words.until is None:
        plan.leave_out_rest(last)
    return plan


def _keeper(folder: str | None) -> Keep | None:
    """Keeps the scripts that are rehearsed in a folder."""
    if folder is None:
        return None
    at = Path(folder)
    numbers = count(1)

    def keep(script: str) -> None:
        try:
            at.mkdir(parents=True, exist_ok=True)
            (at / f"{next(numbers):04}.script").write_text(script)
        except OSError as fault:
            raise Refused(f"{at}: {fault.strerror}") from fault

    return keep


def sweep_of(
    words: argparse.Namespace, plan: Plan, keep: Keep | None = None
) -> tuple[list[Rate], list[Found]]:
    """What each rate of loss does, and the faults of the program that were found."""
    losses = [words.loss] if words.sweep is None else words.sweep
    sweep = Sweep(losses, max(words.nights, 1))
    return swept(plan, consoles_of(words), network_of(words, plan), sweep, keep)


def _end(faults: list[Found]) -> int:
    """Tells the faults of the program that were found; the exit status."""
    for storm, fault in faults[:MOST_FAULTS]:
        print("\n".join(fault_words(storm, fault)), file=sys.stderr)
    if faults:
        told = "a receiver showed other slots than promised: a fault of cueplayer, or of its copy"
        print(f"storm: {told}; --scripts FOLDER keeps what was rehearsed", file=sys.stderr)
    return BROKEN if faults else 0


def _run(words: argparse.Namespace) -> int:
    plan, keep = plan_of_words(words), _keeper(words.scripts)
    if words.sweep is not None:
        rates, faults = sweep_of(words, plan, keep)
        told = json.dumps(list(map(rate_data, rates))) if words.json else sweep_table(rates)
    else:
        told, faults = _storm_told(words, plan, keep)
    print(told, end="\n" if words.json else "")
    return _end(faults)


def _storm_told(
    words: argparse.Namespace, plan: Plan, keep: Keep | None
) -> tuple[str, list[Found]]:
    """The storm of the seed, and behind it those of all seeds if there are several."""
    storm = blown(plan, consoles_of(words), network_of(words, plan), keep)
    faults = [(storm, fault) for fault in storm.faults]
    rates: list[Rate] = []
    if words.nights > 1:
        rates, faults = sweep_of(words, plan, keep)
    if words.json:
        seeds = {"seeds": rate_data(rates[0])} if rates else {}
        return json.dumps({**data(storm), **seeds}), faults
    told = report(storm, Path(words.night).name)
    return told + (f"\n{sweep_table(rates)}" if rates else ""), faults


def _parser() -> argparse.ArgumentParser:
    parser = ToolParser("storm", ABOUT, EXAMPLES)
    add_storm(parser)
    parser.add_argument("--scripts", metavar="FOLDER", help="keep the scripts of the rehearsals")
    parser.add_argument("--json", action="store_true", help="print data")
    return parser


def main(words: list[str]) -> int:
    """Runs the tool with these words, and answers its exit status."""
    chosen = _parser().parse_args(words)
    try:
        return _run(chosen)
    except Refused as refusal:
        print(f"storm: {refusal}", file=sys.stderr)
        return REFUSED
