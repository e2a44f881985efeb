"""Rules of a source that sends several universes: each of them is a stream of its own."""

from collections.abc import Callable

from cueplayer_tools.conform.packets import TERMINATED
from cueplayer_tools.conform.script import Case, Rule, Script

# How far the universe is that a receiver of one universe does not show.
FURTHER, LAST_UNIVERSE = 20_000, 63_999


def _not_shown(script: Script) -> None:
    """Also a receiver of one universe sees the numbers of the others."""
    one = script.source()
    beyond = script.universe + FURTHER > LAST_UNIVERSE
    one.send({1: 10}, number=50)
    further = script.universe + (-FURTHER if beyond else FURTHER)
    one.send({1: 20}, number=60, universe=further)
    one.send({1: 30}, number=51)
    script.look("another universe of the source has greater numbers")


def _one_behind(script: Script) -> None:
    one = script.source()
    one.send({1: 10}, number=100)
    one.send_there({1: 20}, number=95)
    script.look_there("the second universe begins 5 behind the first")
    one.send({1: 11}, number=101)
    script.look("the first universe goes on")


def _in_turn(script: Script) -> None:
    """As most consoles send: all universes with one number, then all with the next."""
    one = script.source()
    for number in (7, 8, 9):
        one.send({1: number}, number=number)
        one.send_there({2: number}, number=number)
    script.look("the first of two universes with the same numbers")
    script.look_there("the second of two universes with the same numbers")


def _two_sources(script: Script) -> None:
    low, high = script.source(100), script.source(150)
    for number in (30, 32):
        low.send({1: number}, number=number)
        low.send_there({1: number}, number=number)
        high.send({1: number + 1}, number=number + 1)
        high.send_there({1: number + 1}, number=number + 1)
    script.look("two sources of two universes each, the first universe")
    script.look_there("two sources of two universes each, the second universe")


def _priorities(script: Script) -> None:
    low, high = script.source(100), script.source(150)
    low.send({1: 10})
    high.send_there({2: 20})
    low.send({1: 11})
    script.look("a source of higher priority sends another universe alone")
    script.look_there("that other universe")


def _ended(script: Script) -> None:
    one = script.source()
    one.send({1: 10}, number=20)
    one.send_there({2: 20}, number=40)
    one.send_there({}, number=41, options=TERMINATED)
    script.look("the source ended its second universe, and not this one")


def _lost(script: Script) -> None:
    """The source goes on in the first universe, and is lost in the second one."""
    one, other = script.source(150), script.source(100)
    one.send({1: 10})
    one.send_there({2: 20})
    for _ in range(3):
        script.send(one.packet({1: 10}), wait=1000)
        other.send_there({2: 30})
    script.look("the first universe of the source goes on", 300)
    script.look_there("3.3 s after its last packet the second universe of the source is lost")


def _wide(name: str, write: Callable[[Script], None]) -> Case:
    return Case(name, write, is_wide=True)


RULES = (
    Rule(
        "universes of a source",
        "6.2.5, 6.7",
        "Each universe of a source is a stream of its own",
        (
            Case("one that is not shown", _not_shown),
            _wide("5 behind", _one_behind),
            _wide("in turn", _in_turn),
            _wide("two sources", _two_sources),
            _wide("priorities", _priorities),
            _wide("one ended", _ended),
            _wide("one lost", _lost),
        ),
    ),
)
