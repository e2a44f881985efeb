"""`tools/picture`: draws a night, a rehearsal or a storm as scalable vector graphics."""

import argparse
import re
import sys
from dataclasses import replace
from pathlib import Path

from cueplayer_tools.cue_list import read_show
from cueplayer_tools.line_protocol import Refused, text_of
from cueplayer_tools.night import LEAST_APART, Slot, fill_ticks, night_of, thin_ticks
from cueplayer_tools.picture.curves import all_of, choose_curves
from cueplayer_tools.picture.night import NightPicture, draw_night
from cueplayer_tools.picture.rehearsal import draw_rehearsal, moments_between
from cueplayer_tools.picture.storm import Panel, brightest, draw_storms, draw_sweep
from cueplayer_tools.record import lost_in, read_record, words_of
from cueplayer_tools.rehearsal import rehearse, with_questions, with_replies
from cueplayer_tools.storm.command import (
    add_storm,
    consoles_of,
    losses,
    network_of,
    plan_of_words,
    sweep_of,
)
from cueplayer_tools.storm.report import network_words
from cueplayer_tools.storm.sweep import blown
from cueplayer_tools.tool_parser import ToolParser

ABOUT = "Draws a night, a rehearsal or a storm as scalable vector graphics."
EXAMPLES = ("tools/picture night hamlet.asc tonight/record > night.svg",)

QUESTIONS = 480


def slot_word(word: str) -> Slot:
    """`UNIVERSE:SLOT`."""
    found = re.fullmatch(r"(\d{1,5}):(\d{1,3})", word, re.ASCII)
    if found and 1 <= int(found[1]) <= 63_999 and 1 <= int(found[2]) <= 512:
        return int(found[1]), int(found[2])
    raise argparse.ArgumentTypeError(f"not a slot of a universe: {word!r}")


def whole_number(word: str) -> int:
    if re.fullmatch(r"\d{1,15}", word, re.ASCII):
        return int(word)
    raise argparse.ArgumentTypeError(f"not a number: {word!r}")


def night_picture(words: argparse.Namespace) -> str:
    """The picture of a record."""
    show = read_show(words.show)
    given = read_record(text_of(words.record))
    if not given:
        raise Refused("the record has no lines")
    if words.every is not None:
        given = fill_ticks(given, max(words.every, LEAST_APART))
    first = given[0].moment if words.first is None else words.first
    last = given[-1].moment if words.until is None else words.until
    asked_for = {universe for universe, _ in words.slot}
    universes = sorted(asked_for | set(show.universes(words.base)))
    night = night_of(words.show, thin_ticks(given, first, last), universes, words.base)
    if words.slot or words.channel:
        named, left_away = choose_curves(night, show, words.base, words.slot, words.channel), 0
    else:
        named, left_away = all_of(night, show, words.base)
    lost = None if words.replies is None else lost_in(text_of(words.replies))
    title = words.title or Path(words.record).name
    return draw_night(NightPicture(title, show, night, named, left_away, lost))


def rehearsal_picture(words: argparse.Namespace) -> str:
    """The picture of a script's rehearsal, or of what was printed of it."""
    script = text_of(words.script)
    if words.replies is not None:
        rehearsal = with_replies(script, text_of(words.replies))
    else:
        lines = (words_of(line) for line in script.split("\n"))
        moments = [int(line[0]) for line in lines if line and line[0].isdecimal()]
        questions = moments_between(moments, QUESTIONS)
        rehearsal = rehearse(words.show, with_questions(script, questions))
    return draw_rehearsal(words.title or Path(words.script).name, rehearsal)


def storm_picture(words: argparse.Namespace) -> str:
    """The picture of a night in a bad network, or of what each rate of loss does to it."""
    plan = plan_of_words(words)
    network = network_of(words, plan)
    title = words.title or Path(words.night).name
    if words.sweep is not None:
        rates, _ = sweep_of(words, plan)
        nights = f", {words.nights} nights each" if words.nights > 1 else ""
        return draw_sweep(title, rates, network_words(network, "packets lost") + nights)
    rates = words.losses or [network.loss]
    storms = [blown(plan, consoles_of(words), replace(network, loss=loss)) for loss in rates]
    known = set(plan.sent)
    if unknown := [universe for universe, _ in words.slot if universe not in known]:
        raise Refused(f"universe {unknown[0]} is not sent")
    return draw_storms(title, [Panel(storm, words.slot or brightest(storm)) for storm in storms])


def _parser() -> argparse.ArgumentParser:
    parser = ToolParser("picture", ABOUT, EXAMPLES)
    metavar = "night|rehearsal|storm"
    kinds = parser.add_subparsers(
        required=True, metavar=metavar, parser_class=argparse.ArgumentParser
    )
    night = kinds.add_parser("night", help="a record of `live`, or lines of `play`")
    night.add_argument("show", metavar="SHOW")
    night.add_argument("record", metavar="RECORD")
    night.add_argument("--replies", metavar="FILE", help="what `live` printed: the lost packets")
    night.add_argument("--slot", metavar="U:S", type=slot_word, action="append", default=[])
    night.add_argument("--channel", metavar="N", type=whole_number, action="append", default=[])
    night.add_argument("--from", metavar="MS", dest="first", type=whole_number)
    night.add_argument("--until", metavar="MS", type=whole_number)
    night.add_argument("--base", metavar="U", type=whole_number, default=1)
    night.add_argument(
        "--every",
        metavar="MS",
        type=whole_number,
        help="add ticks this far apart between lines that have none",
    )
    night.add_argument("--title", metavar="TEXT")
    night.set_defaults(draw=night_picture)
    rehearsal = kinds.add_parser("rehearsal", help="a script of `rehearse`")
    rehearsal.add_argument("show", metavar="SHOW")
    rehearsal.add_argument("script", metavar="SCRIPT")
    rehearsal.add_argument(
        "--replies",
        metavar="FILE",
        help="what `rehearse` printed; without it, the tool runs the rehearsal",
    )
    rehearsal.add_argument("--title", metavar="TEXT")
    rehearsal.set_defaults(draw=rehearsal_picture)
    storm = kinds.add_parser("storm", help="a night in a bad network")
    add_storm(storm)
    storm.add_argument("--losses", metavar="PERCENT,..", type=losses,
        help="the night at each of these rates of loss, one below the other")  # fmt: skip
    storm.add_argument("--slot", metavar="U:S", type=slot_word, action="append", default=[])
    storm.add_argument("--title", metavar="TEXT")
    storm.set_defaults(draw=storm_picture)
    return parser


def main(words: list[str]) -> int:
    """Runs the tool with these words, and answers its exit status."""
    chosen_words = _parser().parse_args(words)
    try:
        print(chosen_words.draw(chosen_words), end="")
    except Refused as refusal:
        print(f"picture: {refusal}", file=sys.stderr)
        return 1
    return 0
