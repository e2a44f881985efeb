"""Lines, words and the forms of words (PROFILE.md, "Lines and words" and "Numbers, levels and
times")."""

import re

BLANKS = re.compile(rb"[ \t\r\x1a,;/<=>@]+")
DIGITS = re.compile(rb"[0-9]{1,9}")
CUE = re.compile(rb"([0-9]{1,9})?(?:\.([0-9]{1,3}))?")
HEX_LEVEL = re.compile(rb"[Hh]([0-9A-Fa-f]{1,2})")
SECONDS = re.compile(rb"([0-9]{1,9})?(?:\.([0-9]{1,2}))?")
MINUTES = re.compile(rb"([0-9]{1,9}):([0-9]{1,2})(?:\.([0-9]{1,2}))?")
UUID = re.compile(rb"[0-9a-f]{8}-[0-9a-f]{4}-[0-9a-f]{4}-[0-9a-f]{4}-[0-9a-f]{12}")
PLAIN_UUID = re.compile(rb"[0-9a-f]{32}")


def lines_of(text):
    """The lines of a text, without their LF: what is behind the last LF is a line where it has
    bytes."""
    lines = text.split(b"\n")
    return lines if lines[-1] else lines[:-1]


def words_of(line):
    """The words of a line: what stands between separators, before the first `!`."""
    return [word for word in BLANKS.split(line.partition(b"!")[0]) if word]


def lines_with_words(text):
    """The lines above ENDDATA that have words, each with its number and its words."""
    for n, line in enumerate(lines_of(text), 1):
        words = words_of(line)
        if words and words[0].upper() == b"ENDDATA":
            return
        if words:
            yield n, line, words


def number(word, least=0, most=999_999_999):
    """A digit run of a value in this range, or None."""
    if not DIGITS.fullmatch(word):
        return None
    value = int(word)
    return value if least <= value <= most else None


def cue_number(word):
    """A cue number in thousandths, or None."""
    form = CUE.fullmatch(word)
    if not form or not word:
        return None
    whole = int(form[1] or b"0")
    value = 1000 * whole + int((form[2] or b"").ljust(3, b"0"))
    return value if whole <= 9999 and value else None


def level(word):
    """A level byte, or None."""
    if word.upper() in (b"FL", b"FF"):
        return 255
    form = HEX_LEVEL.fullmatch(word)
    if form:
        return int(form[1], 16)
    percent = number(word, most=100)
    return None if percent is None else (percent * 255 + 50) // 100


def time(word):
    """A time in milliseconds, or None."""
    form = MINUTES.fullmatch(word)
    if form:
        minutes, seconds = int(form[1]), int(form[2])
        if minutes > 99 or seconds > 59:
            return None
        return 60_000 * minutes + 1000 * seconds + 10 * int((form[3] or b"").ljust(2, b"0"))
    form = SECONDS.fullmatch(word)
    if not form or not word:
        return None
    seconds = int(form[1] or b"0")
    if seconds > 5999:
        return None
    return 1000 * seconds + 10 * int((form[2] or b"").ljust(2, b"0"))


def moment(word):
    """A moment of an input line, or the number of a packet: 1 to 15 digits."""
    return int(word) if re.fullmatch(rb"[0-9]{1,15}", word) else None


def hex_bytes(word):
    """The bytes that an even number of hex digits spells, or None."""
    if len(word) % 2 or not re.fullmatch(rb"[0-9A-Fa-f]*", word):
        return None
    return bytes.fromhex(word.decode())


def uuid(word):
    """The 16 bytes of a UUID: plain, hyphenated, in braces, or behind `urn:uuid:`."""
    word = word.lower()
    if PLAIN_UUID.fullmatch(word):
        return bytes.fromhex(word.decode())
    if word.startswith(b"urn:uuid:"):
        word = word[9:]
    elif word.startswith(b"{") and word.endswith(b"}"):
        word = word[1:-1]
    return bytes.fromhex(word.replace(b"-", b"").decode()) if UUID.fullmatch(word) else None
