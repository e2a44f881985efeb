"""A console: its commands, fades, masters and frames (PROFILE.md, FORMATS.md "The lines of
play")."""

from .follow_on import due_moves, next_cue
from .stream import Stream
from .words import cue_number, level, number, time

LATEST = 1 << 48
FULL = 255


def fade(start, target, rate, elapsed):
    """The fine level so many milliseconds after a move began at `start`."""
    length, delay = rate
    if elapsed >= delay + length:
        return target
    if elapsed <= delay:
        return start
    moved = abs(target - start) * (elapsed - delay) // length
    return start + moved if target > start else start - moved


def slot_byte(fine, grand, patch):
    """The byte of a patched slot, by its channel's fine level."""
    return (fine * grand * patch + 8290687) // 16581375


def command(words):
    """The command that these words spell, as a tuple, or None."""
    if not words:
        return None
    name, given = words[0].lower(), words[1:]
    if name in (b"go", b"back", b"end"):
        return None if given else (name.decode(),)
    if name == b"goto" and len(given) == 3:
        cue, link, length = cue_number(given[0]), given[1].lower(), time(given[2])
        return None if link != b"in" or None in (cue, length) else ("goto", cue, length)
    forms = {
        b"goto": (cue_number,),
        b"sub": (lambda word: number(word, most=65535), level),
        b"group": (lambda word: number(word, most=65535), level),
        b"master": (level,),
    }.get(name)
    if not forms or len(forms) != len(given):
        return None
    values = [form(word) for form, word in zip(forms, given)]
    return None if None in values else (name.decode(), *values)


class Desk:
    """A console that plays a show, its universes numbered from `base`."""

    def __init__(self, show, base):
        self.show = show
        self.last = 0
        self.ticked = None
        self.endings = None
        self.cue, self.moved, self.fading = None, 0, {}
        # Each move so far, as (cue, moment).
        self.moves = []
        self.masters = {"sub": {}, "group": {}}
        self.grand = FULL
        self.patched = {}
        for dimmer, (channel, byte) in show.patch.items():
            slots = self.patched.setdefault((dimmer - 1) // 512, [])
            slots.append(((dimmer - 1) % 512 + 1, channel, byte))
        self.streams = {base + k: (k, Stream()) for k in show.universes()}

    def move(self, cue, moment, length=None):
        """Every channel starts from where it is, and goes to the cue's level: in the cue's times,
        or over this length without delay."""
        looked = self.show.cues[cue]
        channels = set(self.fading) | set(looked.levels)
        fading = {}
        for channel in channels:
            start, target = self.playback(channel, moment), 255 * looked.levels.get(channel, 0)
            times = looked.rises() if target > start else looked.falls()
            fading[channel] = (start, target, times if length is None else (length, 0))
        self.cue, self.moved, self.fading = cue, moment, fading
        self.moves.append((cue, moment))

    def playback(self, channel, moment):
        if channel not in self.fading:
            return 0
        return fade(*self.fading[channel], moment - self.moved)

    def channel(self, channel, moment):
        """The greatest of the playback and of what each submaster and group gives."""
        levels = [self.playback(channel, moment)]
        for kind, table in (("sub", self.show.subs), ("group", self.show.groups)):
            for n, byte in self.masters[kind].items():
                levels.append(table[n].get(channel, 0) * byte)
        return max(levels)

    def frame(self, k, moment):
        """The slots of a universe that are not 0."""
        frame = {}
        for slot, channel, patch in self.patched[k]:
            byte = slot_byte(self.channel(channel, moment), self.grand, patch)
            if byte:
                frame[slot] = byte
        return frame

    def early(self, moment):
        """The refusal that the moment brings about."""
        if moment < self.last:
            return "Backwards"
        return "MomentTooLarge" if moment >= LATEST else None

    def due(self, moment):
        """The moves that follow by themselves up to a moment."""
        return due_moves(self.show, self.cue, self.moved, moment) if self.endings is None else []

    def make(self, moves):
        for cue, moment in moves:
            self.move(cue, moment)

    def order(self, moment, asked):
        """Takes a command: None, or the name of its refusal."""
        if self.early(moment):
            return self.early(moment)
        if self.endings is not None:
            return "Ended"
        due = self.due(moment)
        refusal, move = self.decision(asked, due[-1][0] if due else self.cue)
        if refusal:
            return refusal
        self.make(due)
        if move:
            self.move(move, moment, asked[2] if asked[0] == "goto" and len(asked) == 3 else None)
        elif asked[0] == "end":
            self.endings = 0
        elif asked[0] == "master":
            self.grand = asked[1]
        else:
            self.masters[asked[0]][asked[1]] = asked[2]
        self.last = moment
        return None

    def decision(self, asked, current):
        """The refusal of a command, and the cue that it moves to."""
        name = asked[0]
        if name == "go":
            cue = next_cue(self.show, current)
            return (None, cue) if cue else ("AtEnd", None)
        if name == "back":
            cue = max((n for n in self.show.cues if current and n < current), default=None)
            return (None, cue) if cue else ("AtStart", None)
        if name == "goto":
            return (None, asked[1]) if asked[1] in self.show.cues else ("NoCue", None)
        if name in ("sub", "group"):
            table = self.show.subs if name == "sub" else self.show.groups
            return (
                None if asked[1] in table else {"sub": "NoSub", "group": "NoGroup"}[name]
            ), None
        return None, None

    def tick(self, moment):
        """Makes a tick: the refusal's name, or (the ending or 0, [(universe, packet or None)])."""
        if self.early(moment):
            return self.early(moment)
        if self.endings == 3:
            return "Ended"
        if self.ticked is not None and moment - self.ticked < 23:
            return "TooSoon"
        self.make(self.due(moment))
        self.last = self.ticked = moment
        if self.endings is not None:
            self.endings += 1
            return self.endings, [
                (u, stream.end()) for u, (_, stream) in sorted(self.streams.items())
            ]
        offers = []
        for universe, (k, stream) in sorted(self.streams.items()):
            offers.append((universe, stream.offer(moment, self.frame(k, moment))))
        return 0, offers
