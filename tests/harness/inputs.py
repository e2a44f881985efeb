"""Shows, input lines, scripts and datagrams made by chance: mostly good ones, oddly spelled."""

from expected.show import TIMED
from program import CID, packet

SEPARATORS = [" ", " ", " ", "  ", "\t", ",", ";", "/", "<", "=", ">", "@", "\r", "\x1a", " ,;"]
CUES = ["1", "1", "2", "2", "1.5", ".25", "0.001", "9999.999", "3", "3.0", "010"]
LEVELS = [
    "FL",
    "FF",
    "0",
    "1",
    "50",
    "50",
    "99",
    "100",
    "H0",
    "HF",
    "H80",
    "h8a",
    "HFF",
    "000000050",
]
TIMES = "0 0 5 2.5 .5 1:30 0:00.03 99:59.99 5999.99 .01 1:5 000000002 0.2".split()
CHANNELS = ["1", "1", "2", "3", "4", "5", "4096", "0002"]
DIMMERS = ["1", "2", "3", "4", "5", "512", "513", "514", "1025", "8192", "7681"]
ODD = [
    "", "0", "-1", "+1", "x", "101", "501", "4097", "8193", "6000", "100:00", "1:60", "10000", "H",
    "HFFF",
    "HG", "5.", ".", "..1", "1.0001", "1.234", "999999999", "1234567890", "0000000001", "FLL",
    "3:0", "1:2:3",
    "1e3", "65536", "65535", "\x00", "\xff", "\xb2", "\xa0", "\x0b", "0x1", "1_0", "1 1",
    "5999.999",
]  # fmt: skip
FOLLOWS = "0 0 .01 .02 .03 .05 .05 .1 .1 .2 .2 .4 1".split()
# What arrows, Home, F1, F5, F12 and keys of the Linux console send, ESC with a letter, and what
# has no end.
KEYS = [
    b"\x1b[A",
    b"\x1b[D",
    b"\x1b[1~",
    b"\x1bOP",
    b"\x1b[15~",
    b"\x1b[24~",
    b"\x1b[1;5C",
    b"\x1b[[A",
    b"\x1bx",
]
KEYS += [b"\x1b", b"\x1b[", b"\x1bO", b"\x1b[[", b"\x1b\x1b[A"]
STEPS = [0, 0, 1, 22, 23, 24, 25, 25, 25, 25, 100, 199, 200, 775, 799, 800, 801, 2500, 5000, 60000]
STARTS = [0] * 20 + [5] * 5 + [1000000] * 5 + [(1 << 48) - 3000, (1 << 48) - 1, 1 << 48]
BEHIND = [1, 1, 1, 2, 3, 18, 19, 20, 21, 127, 128, 217, 235, 236, 237, 255, 0]
PASSED = [0, 0, 1, 5, 22, 23, 25, 25, 50, 99, 100, 101, 800, 999, 1000, 2499, 2500]
NAMES = [
    b"main",
    b"main",
    b"backup",
    b"",
    b"a\0b",
    b"\x1b[2J\x07",
    b"\xff" * 64,
    "M\u00fcller".encode(),
    b"a b !",
]
OTHER_LINES = [
    "IDENT 3:0", "IDENT 3:0 x", "SET CHANNELS 96", "CONSOLE x", "MANUFACTURER", "CLEAR GROUPS",
    "CLEAR CUES",
    "CLEAR PATCH", "CLEAR SUB", "CLEAR CUE 2", "CLEAR x", "CLEAR", "$MAKER 9", "$", "$$FADE 7",
    "$$", "MACRO 7",
    "TEXT x", "TEXT \"a b\" ", "LINK 2", "PART 1", "PATCH 2 x", "PATCH 1", "", "! comment",
    "\xef\xbb\xbfCUE 1", "CHAN", "DOWN 1 2",
]  # fmt: skip
HARDER_LINES = ["UP x", "CHAN 1 x", "DOWN", "CLEAR ALL", "ENDDATA"]
CIDS = [CID[:-1] + digit for digit in "123456"]


def spelling(r, words, odd=0.01):
    """A line of these words: other separators, letters of either case, comments, blanks at its
    ends."""
    words = [r.choice(ODD) if r.random() < odd else word for word in words]
    if r.random() < 0.5:
        return " ".join(words)
    words = [word.swapcase() if r.random() < 0.2 else word for word in words]
    line = "".join(word + r.choice(SEPARATORS) for word in words)
    if r.random() < 0.2:
        line = r.choice(SEPARATORS) + line
    if r.random() < 0.15:
        line += "!" + r.choice(["", " a comment", "! !", " CUE 1", "\xe9\x00"])
    return line


def text_of(r, lines):
    """The bytes of lines: with LF, at times with CR LF, and at times without the last LF."""
    end = r.choice(["\n", "\n", "\n", "\r\n"])
    made = "".join(line + end for line in lines)
    return (made[:-1] if r.random() < 0.1 else made).encode("latin-1", "replace")


def pairs(r):
    count = r.choice([0, 1, 1, 2, 3, 3, 8])
    return [word for _ in range(count) for word in (r.choice(CHANNELS), r.choice(LEVELS))]


def triples(r):
    count = r.choice([1, 2, 4, 8])
    words = []
    for _ in range(count):
        words += [r.choice(CHANNELS + ["0"]), r.choice(DIMMERS), r.choice(LEVELS[:2] * 4 + LEVELS)]
    return words


def record(r):
    """The lines of a cue, submaster or group."""
    kind = r.choice(["CUE"] * 4 + ["SUB", "SUB", "GROUP"])
    n = r.choice(CUES) if kind == "CUE" else r.choice(["1", "1", "2", "3", "100"])
    page = r.choice([[]] * 12 + [["1"], ["01"], ["2"], ["1", "x"]])
    lines = [[kind, n, *page]]
    for _ in range(r.choice([0, 1, 1, 2, 3])):
        lines.append(["CHAN", *pairs(r)])
    for keyword, count in TIMED.items():
        if r.random() < (0.4 if count > 1 else 0.1):
            times = r.choices(TIMES, k=r.choice([1, 1, 1, 2, 3]))
            lines.insert(r.randrange(1, len(lines) + 1), [keyword.decode(), *times])
    return lines


def other_line(r):
    """A line that is skipped or has no effect, that empties tables, ends it all, or is faulty."""
    if r.random() < 0.1:
        return r.choice(HARDER_LINES).split()
    return r.choice(OTHER_LINES).split()


def show(r, odd):
    """A show of some records, mostly with a patch; one word in so many is an odd one."""
    lines = [["IDENT", "3:0"]] if r.random() < 0.3 else []
    if r.random() < 0.6:
        lines += ["PATCH 1 1 1 FL 2 2 FL 1 513 H80".split(), ["SUB", "1"], ["CHAN", *pairs(r)]]
        lines += [["CUE", "1"], ["UP", r.choice(TIMES)], ["CHAN", "1", "FL", *pairs(r)]]
    for _ in range(r.randrange(1, 7)):
        lines += record(r)
        if r.random() < 0.25:
            lines.append(other_line(r))
        if r.random() < 0.6:
            lines.append(["PATCH", "1", *triples(r)])
    lines += [["ENDDATA"]] if r.random() < 0.3 else []
    return text_of(r, [spelling(r, line, odd) for line in lines])


def chained_show(r):
    """A show whose cues mostly follow one another, and soon."""
    lines = []
    cues = CUES + ["4", "5", "6.6", "7", "8"]
    for n in r.sample(cues, r.randrange(4, len(cues))):
        lines += [["CUE", n], ["FOLLOWON", r.choice(FOLLOWS)]]
    return "".join(spelling(r, line, odd=0) + "\n" for line in lines).encode("latin-1") + show(
        r, odd=0
    )


def command(r):
    return r.choice(
        [
            ["go"], ["go"], ["go"], ["back"], ["goto", r.choice(CUES)], ["goto", r.choice(CUES)],
            ["goto", r.choice(CUES), "in", r.choice(TIMES)],
            ["sub", r.choice("1123"), r.choice(LEVELS)],
            ["sub", r.choice("1123"), r.choice(LEVELS)],
            ["group", r.choice("1123"), r.choice(LEVELS)], ["master", r.choice(LEVELS)],
            ["end"] if r.random() < 0.2 else ["go"],
        ]
    )  # fmt: skip


def with_zeros(r, value):
    """A number, at times with zeros in front."""
    return f"{value:0{r.choice([1, 1, 1, 1, 1, 9, 15])}}"


def moments(r):
    """Moments that rise, and now and then fall."""
    now = r.choice(STARTS)
    while True:
        yield now if r.random() < 0.99 else max(0, now - r.choice([1, 22, 1000]))
        now += r.choice(STEPS)


def play_lines(r):
    lines = []
    for _, now in zip(range(r.randrange(4, 30)), moments(r)):
        words = ["tick"] if r.random() < 0.6 else command(r)
        lines.append(spelling(r, [with_zeros(r, now), *words], odd=0.003))
        if r.random() < 0.03:
            lines.append(r.choice(["", "!", "\r", " " * 200, "!" * 200, " " * 201]))
    return text_of(r, lines)


def event(r, now, ticks):
    """An event of a script; `ticks` has those of each console so far."""
    console = r.randrange(len(ticks)) if r.random() < 0.98 else 4
    receiver = r.choice("0" * 12 + "11" + "9")
    name = r.choice(
        ["do", "tick", "tick", "tick", "deliver", "deliver", "deliver", "stray", "slots"]
    )
    if name == "tick" and console < len(ticks):
        ticks[console] += 1
    newest = ticks[console] if console < len(ticks) else 0
    given = {
        "do": lambda: command(r),
        "deliver": lambda: [r.choice("1" * 12 + "2"), str(max(0, newest - r.choice(BEHIND)))],
        "stray": lambda: [datagram(r)[: r.choice([0, 200, 700])].hex()],
    }.get(name, list)()
    if name in ("do", "tick"):
        return [with_zeros(r, now), name, str(console), *given]
    of_console = [str(console)] if name == "deliver" else []
    return [with_zeros(r, now), name, receiver, *of_console, *given]


def script(r):
    """A rehearsal of one or two consoles."""
    priority = r.choice(["100", "100", "150", "200", "0"])
    lines = [["console", r.choice("111117"), priority, uuid_word(r, CIDS[0])]]
    if r.random() < 0.5:
        lines.append(
            ["console", "1", r.choice(["100", "150", "99"]), uuid_word(r, r.choice(CIDS))]
        )
    ticks = [0] * len(lines)
    lines += [
        ["receiver", universe] for universe in r.choice(["1", "1", "12", "21", "17", "1", "11"])
    ]
    for _, now in zip(range(r.randrange(10, 80)), moments(r)):
        lines.append(event(r, now, ticks))
    return text_of(r, [spelling(r, line, odd=0.0005) for line in lines])


def uuid_word(r, cid):
    return r.choice(
        [cid, cid, cid.upper(), cid.replace("-", ""), "{" + cid + "}", "urn:uuid:" + cid]
    )


def short_packet(sent, slots):
    """The packet with so many slots alone, and its lengths by them."""
    sent = bytearray(sent[: 126 + slots])
    for offset, length in ((16, 110 + slots), (38, 88 + slots), (115, 11 + slots)):
        sent[offset : offset + 2] = (0x7000 | length).to_bytes(2, "big")
    sent[123:125] = (slots + 1).to_bytes(2, "big")
    return bytes(sent)


def datagrams(r, count):
    """Datagrams of some sources, whose numbers go on and now and then fall behind."""
    sources = r.sample(CIDS, r.choice([1, 2, 4, 4, 6]))
    numbers = dict.fromkeys(sources, 0)
    made = []
    for _ in range(count):
        cid = r.choice(sources)
        number = (numbers[cid] + r.choice(BEHIND)) % 256
        made.append(datagram(r, cid, number))
        if r.random() < 0.8:
            numbers[cid] = number
    return made


def datagram(r, cid=CIDS[-1], sequence=None):
    """A datagram: mostly of universe 1, mostly readable, its number by chance where none is
    given."""
    slots = {r.choice([1, 2, 3, 4, 511, 512]): r.choice([1, 64, 128, 255]) for _ in range(3)}
    universe = r.choice([1] * 12 + [2, 63999, 64000, 0])
    sequence = r.randrange(256) if sequence is None else sequence
    options = r.choice([0] * 12 + [0x40, 0x40, 0x80, 0xC0, 0x20, 0x1F])
    priority = r.choice([100] * 16 + [0, 99, 101, 200, 201, 255])
    sent = packet(universe, slots, sequence, options, priority, cid)
    if r.random() < 0.1:
        sent = sent[:125] + r.choice([b"\xdd", b"\xcc", b"\x01"]) + sent[126:]
    if r.random() < 0.2:
        sent = short_packet(sent, r.choice([0, 1, 2, 511, 512, r.randrange(513)]))
    if r.random() < 0.1:
        sent += bytes(r.choice([1, 2, 861, 862, 863, 9000]))
    return sent


def watch_lines(r, nights, universes):
    """Nights of `watch`, each long behind the one before: lines of the clock and of datagrams."""
    lines, moment = [], 0
    for _ in range(nights):
        sources = r.sample(CIDS, r.choice([1, 2, 4, 6]))
        numbers = {}
        for _ in range(r.choice([5, 20, 60])):
            moment += r.choice(PASSED)
            behind = r.choice([1, 30, 3000]) if r.random() < 0.03 else 0
            made = (
                ""
                if r.random() < 0.3
                else watched_datagram(r, r.choice(sources), numbers, universes).hex()
            )
            spelled_so = made.upper() if r.random() < 0.1 else made
            lines.append([with_zeros(r, max(moment - behind, 0)), *filter(None, [spelled_so])])
        moment += r.choice([2499, 2500, 2501, 9000])
    return text_of(r, [spelling(r, words, odd=0) for words in lines])


def watched_datagram(r, cid, numbers, universes):
    """A datagram of a source: mostly its next of a universe, short, its name of any bytes."""
    universe = r.choice([*universes] * 6 + [3, 64000, 0])
    number = (numbers.get((cid, universe), r.randrange(256)) + r.choice(BEHIND)) % 256
    if r.random() < 0.8:
        numbers[cid, universe] = number
    name = r.choice(NAMES)
    options = r.choice([0] * 16 + [0x40, 0x40, 0x80, 0xC0, 0x20])
    priority = r.choice([100] * 12 + [0, 99, 101, 200, 201])
    slots = {r.choice([1, 2, 8]): r.choice([1, 64, 255]) for _ in range(2)}
    sent = bytearray(
        short_packet(packet(universe, slots, number, options, priority, cid), r.choice([0, 2, 8]))
    )
    sent[44:108] = name.ljust(64, b"\0")[:64]
    if r.random() < 0.08:
        sent[125] = r.choice([0xDD, 0xDD, 0xCC, 1])
    if r.random() < 0.06:
        sent[21], sent[43] = r.choice([(8, 1), (8, 2), (8, 3), (4, 1)])
    if r.random() < 0.04:
        sent[r.randrange(126)] ^= 1 << r.randrange(8)
    return bytes(sent[: r.randrange(126)] if r.random() < 0.02 else sent)


def target_word(r, universes, addresses):
    """A word of `--to`: mostly of universes of the show, to one of these addresses; now and then
    none."""
    host, port = r.choice(addresses)
    universe = r.choice(universes)
    other = r.choice([*universes, universe + 1])
    named = r.choice(
        ["", "", f"{universe}=", f"{universe}=", f"0{universe}=", f"{universe}-{other}="]
    )
    word = f"{named}{host}:{padded_port(r, port)}"
    return (
        r.choice(["", "1=", "x", f"0={host}", f"{word}x", f"={word}", f"{word}="])
        if r.random() < 0.02
        else word
    )


def padded_port(r, port):
    """A port, at times with zeros in front."""
    return f"{port:0{r.choice([1, 1, 1, 9])}}"


def target_words(r, universes, addresses):
    """The targets of a run, mostly such as it takes."""
    words = [target_word(r, universes, addresses) for _ in range(r.choice([1, 1, 2, 2, 3, 5]))]
    host, port = r.choice(addresses)
    return [f"{host}:{port}", *words] if r.random() < 0.6 else words
