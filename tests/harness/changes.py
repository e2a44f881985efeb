"""What a bad night does to bytes: turned, cut, doubled, swapped, and numbers at their bounds."""

import re

NUMBERS = (
    b"0 1 22 23 99 100 101 200 201 255 256 512 513 2001 4096 4097 5999 6000 8192 8193 9999 "
    b"10000 63999 64000"
    b" 65535 65536 999999999 1000000000 281474976710655 281474976710656 999999999999999 "
    b"1000000000000000"
    b" 18446744073709551615 18446744073709551616 00 0000000000 -1"
).split()
SEPARATORS = [bytes([byte]) for byte in b" \t\r\x1a,;/<=>@!\n\0\x0b$"]


def turned_byte(r, data):
    place = r.randrange(len(data))
    return (
        data[:place]
        + bytes([data[place] ^ r.choice([1, 2, 16, 32, 128, 255])])
        + data[place + 1 :]
    )


def other_byte(r, data):
    place = r.randrange(len(data))
    return data[:place] + bytes([r.randrange(256)]) + data[place + 1 :]


def cut(r, data):
    return data[: r.randrange(len(data))]


def without(r, data):
    place = r.randrange(len(data))
    return data[:place] + data[place + r.choice([1, 1, 2, 5, 50]) :]


def double(r, data):
    first = r.randrange(len(data))
    after = first + r.choice([1, 1, 3, 20, 300])
    return data[:after] + data[first:after] + data[after:]


def put_in(r, data):
    place = r.randrange(len(data) + 1)
    return data[:place] + r.choice(SEPARATORS) + data[place:]


def other_separator(r, data):
    places = [m.start() for m in re.finditer(rb"[ \t\r\x1a,;/<=>@\n!]", data)]
    if not places:
        return data
    place = r.choice(places)
    return data[:place] + r.choice(SEPARATORS) + data[place + 1 :]


def other_number(r, data):
    found = list(re.finditer(rb"[0-9]+", data))
    if not found:
        return data
    one = r.choice(found)
    return data[: one.start()] + r.choice(NUMBERS) + data[one.end() :]


def by_lines(change):
    """A change of the list of lines, of at least two."""

    def change_lines(r, data):
        lines = data.split(b"\n")
        if len(lines) > 2:
            change(r, lines)
        return b"\n".join(lines)

    return change_lines


@by_lines
def swapped_lines(r, lines):
    one, other = r.randrange(len(lines)), r.randrange(len(lines))
    lines[one], lines[other] = lines[other], lines[one]


@by_lines
def doubled_line(r, lines):
    lines.insert(r.randrange(len(lines)), r.choice(lines))


@by_lines
def cut_line(r, lines):
    one = r.randrange(len(lines))
    lines[one] = lines[one][: r.randrange(len(lines[one]) + 1)]


@by_lines
def lost_line(r, lines):
    del lines[r.randrange(len(lines))]


@by_lines
def other_ends(r, lines):
    lines[:] = [r.choice([line, line + b"\r", line + b"\r\r"]) for line in lines]


@by_lines
def joined_lines(r, lines):
    one = r.randrange(len(lines) - 1)
    lines[one : one + 2] = [lines[one] + r.choice([b"", b" ", b"\r"]) + lines[one + 1]]


@by_lines
def swapped_words(r, lines):
    one = r.randrange(len(lines))
    words = lines[one].split(b" ")
    r.shuffle(words)
    lines[one] = b" ".join(words)


OF_BYTES = (turned_byte, other_byte, cut, without, double, put_in)
OF_LINES = (
    swapped_lines,
    doubled_line,
    cut_line,
    lost_line,
    other_ends,
    joined_lines,
    swapped_words,
)
OF_TEXTS = OF_BYTES + OF_LINES + (other_separator, other_number, other_number, other_number)


def with_changes(r, data, changes, most):
    """The bytes after up to so many changes; none is likely enough too."""
    for _ in range(r.randrange(most + 1)):
        if data:
            data = r.choice(changes)(r, data)
    return data
