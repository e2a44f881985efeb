"""Words of another console's export, spelled more freely than a show file takes them.

Each form answers None where a word has no value of it."""

import re
from dataclasses import dataclass
from typing import NamedTuple

LONGEST_TIME = 5_999_990
HIGHEST_CUE = 9_999_999
_DECIMAL = re.compile(r"([0-9]*)(?:\.([0-9]*))?")
_NUMBER = re.compile(r"[0-9]+")
_HEX = re.compile(r"[Hh][0-9A-Fa-f]{1,2}")
_PERCENT = re.compile(r"([0-9]+)(?:\.([0-9]*))?%?")
_CLOCK = re.compile(r"(?:([0-9]+):)?([0-9]+):([0-9]+)(?:\.([0-9]*))?")
# What the profile takes as it stands.
_PLAIN_NUMBER = re.compile(r"[0-9]{1,9}")
_PLAIN_CUE = re.compile(r"[0-9]{1,9}(\.[0-9]{1,3})?|\.[0-9]{1,3}")
_PLAIN_TIME = re.compile(
    r"[0-9]{1,9}(\.[0-9]{1,2})?|\.[0-9]{1,2}|[0-9]{1,9}:[0-5]?[0-9](\.[0-9]{1,2})?"
)


@dataclass(frozen=True, slots=True)
class Time:
    """A time in milliseconds, to hundredths of a second, and what had to be done to it."""

    value: int
    is_rounded: bool = False
    is_cut: bool = False


class Level(NamedTuple):
    """A level byte, whether its word is spelled as no show file spells it, and whether the byte is
    no more than near to it."""

    value: int
    is_free: bool = False
    is_rounded: bool = False


def percent_byte(percent: int) -> int:
    return (percent * 255 + 50) // 100


# The usual spellings of levels.
PLAIN_LEVELS = {str(percent): percent_byte(percent) for percent in range(101)}
PLAIN_LEVELS |= {"FL": 255, "FF": 255} | {f"H{byte:02X}": byte for byte in range(256)}
# A short spelling of each byte: percent where one has it.
LEVEL_WORDS = {byte: f"H{byte:02X}" for byte in range(256)}
LEVEL_WORDS |= {percent_byte(percent): str(percent) for percent in range(101)} | {255: "FL"}


def whole(word: str) -> int | None:
    """A number of any length."""
    return int(word) if _NUMBER.fullmatch(word) and len(word) <= 18 else None


def thousandths(word: str) -> int | None:
    """A number with decimals, in thousandths, and no finer."""
    found = _DECIMAL.fullmatch(word)
    if found is None or not (found[1] or found[2]) or len(found[1]) > 15:
        return None
    decimals = (found[2] or "").ljust(3, "0")
    if decimals[3:].strip("0"):
        return None
    return int(found[1] or 0) * 1000 + int(decimals[:3])


def cue_number(word: str) -> int | None:
    """A cue number in thousandths."""
    value = thousandths(word)
    return value if value and value <= HIGHEST_CUE else None


def level(word: str) -> Level | None:
    """A level byte, and how its word differs from those of a show file."""
    known = PLAIN_LEVELS.get(word)
    if known is not None:
        return Level(known)
    upper = word.upper()
    if upper in ("FL", "FF"):
        return Level(255)
    if _HEX.fullmatch(word):
        return Level(int(word[1:], 16))
    if upper == "FULL":
        return Level(255, True)
    found = _PERCENT.fullmatch(word)
    if found is None or len(word) > 18:
        return None
    parts = found[2] or ""
    scale = 10 ** len(parts)
    share = int(found[1] + parts)
    if share > 100 * scale:
        return None
    byte = (2 * share * 255 + 100 * scale) // (200 * scale)
    return Level(byte, not is_plain_number(word), bool(parts.strip("0")))


def _hundredths(parts: str | None) -> tuple[int, bool]:
    """Decimals of a second as hundredths, rounded half up, and whether that changed them."""
    digits = (parts or "").ljust(3, "0")
    value = int(digits[:2]) + (digits[2] >= "5")
    return value, bool(digits[2:].strip("0"))


def time(word: str) -> Time | None:
    """A time: seconds, or minutes or hours before colons."""
    found = _DECIMAL.fullmatch(word)
    if found is not None and (found[1] or found[2]):
        seconds, parts = found[1] or "0", found[2]
        minutes = hours = "0"
    else:
        found = _CLOCK.fullmatch(word)
        if found is None:
            return None
        hours, minutes, seconds, parts = found[1] or "0", found[2], found[3], found[4]
    if max(len(hours), len(minutes), len(seconds)) > 15:
        return None
    hundredths, is_rounded = _hundredths(parts)
    total = 60 * (60 * int(hours) + int(minutes)) + int(seconds)
    value = 1000 * total + 10 * hundredths
    return Time(min(value, LONGEST_TIME), is_rounded, value > LONGEST_TIME)


def is_plain_number(word: str) -> bool:
    """Whether a number is spelled as a show file spells it."""
    return bool(_PLAIN_NUMBER.fullmatch(word))


def is_plain_cue_number(word: str) -> bool:
    """The same of a cue number."""
    return bool(_PLAIN_CUE.fullmatch(word))


def is_plain_time(word: str) -> bool:
    """The same of a time."""
    return bool(_PLAIN_TIME.fullmatch(word))
