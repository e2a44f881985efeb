"""The words of the program's lines: spelled as the program reads them, or refused."""

import math
import re
from pathlib import Path

HIGHEST_NUMBER = 65_535
MOST_MINUTES = 99
MOST_SECONDS = 5999
LONGEST_NAMED = 80
# The commands that move to a cue.
MOVES = ("go", "back", "goto")
_CUE = re.compile(r"(?P<whole>\d{1,9})?(?:\.(?P<parts>\d{1,3}))?", re.ASCII)
_NUMBER = re.compile(r"\d{1,9}", re.ASCII)
_SECONDS = re.compile(r"(?P<whole>\d{1,9})?(?:\.(?P<parts>\d{1,2}))?", re.ASCII)
_MINUTES = re.compile(
    r"(?P<minutes>\d{1,9}):(?P<whole>\d{1,2})(?:\.(?P<parts>\d{1,2}))?", re.ASCII
)


class Refused(ValueError):
    """What was asked for has no meaning here; its text says why."""


def text_of(file: str) -> str:
    """The text of a file, a character for each byte."""
    try:
        return Path(file).read_bytes().decode("latin-1")
    except OSError as fault:
        raise Refused(f"{file}: {fault.strerror}") from fault


def printable(text: str | bytes, longest: int = LONGEST_NAMED) -> str:
    """A text from elsewhere, safe to print: ASCII, one line, and cut."""
    if isinstance(text, bytes):
        text = text.decode("latin-1")
    shown = "".join(letter if " " <= letter <= "~" else "?" for letter in text[:longest])
    return shown if len(text) <= longest else shown + ".."


def count_of(count: int, what: str) -> str:
    """A count and what is counted, as `1 cue` and `2 cues`."""
    return f"{count} {what}" if count == 1 else f"{count} {what}s"


def thousandths_of(word: str) -> int:
    """The cue number that a word spells, in thousandths."""
    found = _CUE.fullmatch(word)
    if found and word:
        whole, parts = found["whole"], found["parts"]
        value = int(whole or 0) * 1000 + int((parts or "").ljust(3, "0") or 0)
        if 1 <= value <= 9_999_999:
            return value
    raise Refused(f"not a cue number: {printable(word)}")


def cue_word(thousandths: int) -> str:
    """The shortest spelling of a cue number."""
    whole, parts = divmod(thousandths, 1000)
    return f"{whole}.{parts:03}".rstrip("0").rstrip(".")


def milliseconds_of(word: str) -> int:
    """The time that a word spells, in milliseconds: seconds, or minutes, a colon and seconds."""
    found = _SECONDS.fullmatch(word) if word else None
    if found and int(found["whole"] or 0) <= MOST_SECONDS:
        return _in_milliseconds(0, found)
    found = _MINUTES.fullmatch(word)
    if found and int(found["minutes"]) <= MOST_MINUTES and int(found["whole"]) < 60:
        return _in_milliseconds(int(found["minutes"]), found)
    raise Refused(f"not a time: {printable(word)}")


def _in_milliseconds(minutes: int, found: re.Match[str]) -> int:
    hundredths = int((found["parts"] or "").ljust(2, "0"))
    return 60_000 * minutes + 1000 * int(found["whole"] or 0) + 10 * hundredths


def time_word(milliseconds: int) -> str:
    """The shortest spelling of a time, in seconds."""
    seconds, rest = divmod(milliseconds, 1000)
    return f"{seconds}.{rest // 10:02}".rstrip("0").rstrip(".")


def record_number(word: str) -> int:
    """The number of a submaster or group that a word spells."""
    if _NUMBER.fullmatch(word) and int(word) <= HIGHEST_NUMBER:
        return int(word)
    raise Refused(f"not a number: {printable(word)}")


def level_byte(word: str) -> int:
    """The byte of a level word: percent, FL or FF, or H and hex digits."""
    word = word.upper()
    if word in ("FL", "FF"):
        return 255
    if re.fullmatch(r"H[0-9A-F]{1,2}", word):
        return int(word[1:], 16)
    if _NUMBER.fullmatch(word) and int(word) <= 100:
        return (int(word) * 255 + 50) // 100
    raise Refused(f"not a level: {printable(word)}")


def level_word(share: float) -> str:
    """The level word of a share of full, 0.0 to 1.0, rounded to the nearest byte."""
    if not 0.0 <= share <= 1.0:
        raise Refused(f"level out of range: {share:g}")
    return f"H{math.floor(share * 255 + 0.5):02X}"


def command_line(text: str) -> str:
    """A command as the one line of `live` that spells it, or Refused where it is none."""
    match text.lower().split():
        case [("go" | "back" | "end") as word]:
            return word
        case ["goto", number]:
            return f"goto {cue_word(thousandths_of(number))}"
        case ["goto", number, "in", time]:
            cue = cue_word(thousandths_of(number))
            return f"goto {cue} in {time_word(milliseconds_of(time))}"
        case [("sub" | "group") as kind, number, level]:
            return f"{kind} {record_number(number)} H{level_byte(level):02X}"
        case ["master", level]:
            return f"master H{level_byte(level):02X}"
    raise Refused(f"not a command: {printable(text)}")
