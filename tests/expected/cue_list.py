"""The cue list of a show, as a table and as JSON (FORMATS.md)."""

import json

HEAD = "     cue       up    delay     down    delay   follow  channels  label\n"


def decimal(thousandths):
    """A decimal without zeros at its end."""
    whole, parts = divmod(thousandths, 1000)
    return f"{whole}.{parts:03}".rstrip("0").rstrip(".")


def number(thousandths):
    """The same as a number of JSON."""
    return json.loads(decimal(thousandths))


def label_cell(label):
    """The first 80 bytes of a label."""
    shown = "".join(chr(b) if 32 <= b <= 126 else " " if b in b"\t\r" else "?" for b in label[:80])
    return "  " + shown if label else ""


def cue_line(n, cue, label):
    times = [decimal(time) for time in (*cue.rises(), *cue.falls())]
    times.append("-" if cue.follow is None else decimal(cue.follow))
    cells = "".join(time.rjust(9) for time in times)
    return f"{decimal(n):>8}{cells}{len(cue.levels):10}{label_cell(label)}\n"


def universes(show):
    """The universes, numbered from 1, with how many dimmers are patched."""
    ordinals = [(dimmer - 1) // 512 for dimmer in show.patch]
    return [(ordinal + 1, ordinals.count(ordinal)) for ordinal in sorted(set(ordinals))]


def table(show):
    text = HEAD
    for n, cue in sorted(show.cues.items()):
        text += cue_line(n, cue, show.label("cues", n))
    for name, kind in ("subs", "submaster"), ("groups", "group"):
        records = getattr(show, name)
        text += f"\n{kind:>9}  channels  label\n" if records else ""
        for n, levels in sorted(records.items()):
            text += f"{n:9}{len(levels):10}{label_cell(show.label(name, n))}\n"
    text += "\n universe   dimmers\n" if show.patch else ""
    return text + "".join(f"{number:9}{dimmers:10}\n" for number, dimmers in universes(show))


def rate(name, time, delay):
    return {name: number(time), f"{name}_delay": number(delay)}


def cue_object(n, cue, label):
    return {
        "number": decimal(n),
        "label": label.decode("latin-1"),
        **rate("up", *cue.rises()),
        **rate("down", *cue.falls()),
        "follow": None if cue.follow is None else number(cue.follow),
        "channels": len(cue.levels),
    }


def masters(show, name):
    return [
        {"number": n, "label": show.label(name, n).decode("latin-1"), "channels": len(levels)}
        for n, levels in sorted(getattr(show, name).items())
    ]


def data(show):
    """What the JSON of a show says."""
    return {
        "cues": [
            cue_object(n, cue, show.label("cues", n)) for n, cue in sorted(show.cues.items())
        ],
        "submasters": masters(show, "subs"),
        "groups": masters(show, "groups"),
        "universes": [{"universe": n, "dimmers": dimmers} for n, dimmers in universes(show)],
        "patch": [
            {"dimmer": dimmer, "channel": channel, "level": level}
            for dimmer, (channel, level) in sorted(show.patch.items())
        ],
    }
