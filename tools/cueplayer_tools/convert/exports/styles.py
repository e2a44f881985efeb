"""Which console an export is of, by what it says of itself.

All styles are read by the same rules, those of USITT ASCII 3.0. None of them has been tried on an
export of a real console: what is known of them comes from documents."""

import re
from dataclasses import dataclass

from cueplayer_tools.convert.exports.text import Line


@dataclass(frozen=True)
class Style:
    """A family of consoles, the words that name it, and what to look at in its exports."""

    name: str
    words: frozenset[str]
    hint: str = ""


STYLES = (
    Style("the Eos family", frozenset("EOS TI GIO ION XE ELEMENT APEX ETCNOMAD NOMAD".split())),
    Style(
        "Express and Obsession",
        frozenset("EXPRESS EXPRESSION INSIGHT IMPRESSION MICROVISION OBSESSION".split()),
        "effects, macros and profiles are records of the maker, and are left out",
    ),
    Style("Strand", frozenset("STRAND GENIUS GENIUSPLUS PALETTE LIGHTPALETTE MANTRIX".split())),
    Style("MagicQ", frozenset("MAGICQ CHAMSYS".split())),
    Style("Hog", frozenset("HOG WHOLEHOG HOGPC".split())),
)
UNKNOWN = Style("a console that it does not name", frozenset())
_WORD = re.compile(r"[A-Z]+")


def _style_in(said: str) -> Style | None:
    words = set(_WORD.findall(said.upper()))
    return next((style for style in STYLES if words & style.words), None)


def style_of(lines: list[Line]) -> tuple[Style, Line | None]:
    """The style of an export, and the line that tells it: CONSOLE before MANUFACTURER, and those
    before a line of the maker's own."""
    for wanted in ("CONSOLE", "MANUFACTURER"):
        for line in lines:
            if line.first == wanted and (style := _style_in(" ".join(line.words[1:]))):
                return style, line
    for line in lines:
        if line.first.startswith("$$") and (style := _style_in(" ".join(line.words[1:]))):
            return style, line
    return UNKNOWN, None
