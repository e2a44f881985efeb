"""What `live` answers, in a theatre's words: labels, times and percent."""

from collections import deque
from collections.abc import Iterator

from cueplayer_tools.cue_list import Cue, Rate, Show
from cueplayer_tools.line_protocol import (
    MOVES,
    Refused,
    command_line,
    cue_word,
    level_byte,
    milliseconds_of,
    time_word,
)
from cueplayer_tools.live_lines import (
    FULL,
    Answer,
    DroppedReplies,
    LostPackets,
    Move,
    Place,
    read_live_line,
)


def percent(level: int) -> str:
    """A level byte for people."""
    return f"{(level * 100 + FULL // 2) // FULL}%"


def _rate(word: str, rate: Rate) -> str:
    after = f" after {time_word(rate.delay)} s" if rate.delay else ""
    return f"{word} {time_word(rate.time)} s{after}"


def _times(cue: Cue) -> str:
    told = _rate("up", cue.rise)
    if cue.fall != cue.rise:
        told += f", {_rate('down', cue.fall)}"
    if cue.follow is not None:
        told += f", the next follows after {time_word(cue.follow)} s"
    return told


class Answers:
    """What was asked and is not answered yet, and how its answers are told."""

    def __init__(self, show: Show) -> None:
        self.show = show
        self.asked: deque[list[str]] = deque()
        self.current: int | None = None
        # The moment of a goto in a time of its own, and that time in milliseconds.
        self.own_time: tuple[int, int] | None = None

    def ask(self, line: str) -> None:
        """Takes a line that is handed to `live`."""
        try:
            self.asked.append(command_line(line.partition("!")[0]).split())
        except Refused:
            # It gets another answer: of `where` or `help`, or a reason on standard error.
            if line.split() and line.split()[0].lower() == "leave":
                self.asked.append(["leave"])

    def tell(self, line: str) -> list[str]:
        """What people are told of a line that `live` printed."""
        try:
            told = read_live_line(line)
        except ValueError:
            return [line]
        match told:
            case Answer():
                return list(self._answer(told))
            case Move():
                self.current = told.cue
                return [f"{self._named(told.cue)} {self._fade(told)}"]
            case Place():
                self.current = told.cue
                return ["; ".join(self._place(told))]
            case LostPackets():
                universes = ", ".join(map(str, told.universes))
                return [f"packets lost: they could not be sent to universe {universes}"]
            case DroppedReplies():
                self.asked.clear()
                return [line]

    def _named(self, cue: int) -> str:
        name = self.show.cues[cue].name if cue in self.show.cues else ""
        return f'cue {cue_word(cue)} "{name}"' if name else f"cue {cue_word(cue)}"

    def _fade(self, move: Move) -> str:
        if self.own_time and self.own_time[0] == move.moment:
            time = self.own_time[1]
            return f"in {time_word(time)} s" if time else "at once"
        return _times(self.show.cues.get(move.cue, Cue()))

    def _answer(self, answer: Answer) -> Iterator[str]:
        words = self.asked.popleft() if self.asked else []
        if answer.refusal:
            yield self._refusal(answer.refusal, words)
            return
        match words:
            case ["goto", _, "in", time]:
                self.own_time = (answer.moment, milliseconds_of(time))
            case [word] if word in MOVES:
                self.own_time = None
            case ["goto", _]:
                self.own_time = None
            case ["end"]:
                # It has a second answer, once the streams have ended.
                self.asked.append(["ended"])
                yield "the light goes down"
            case ["leave"] | ["ended"]:
                yield "the streams have ended"
            case [_, *_, level] as master:
                yield f"{self._master(master[:-1])} at {percent(level_byte(level))}"
            case _:
                yield "ok"

    def _refusal(self, name: str, words: list[str]) -> str:
        number = words[1] if len(words) > 1 else "?"
        here = "" if self.current is None else f" {self._named(self.current)}"
        told = {
            "AtEnd": f"no cue comes after{here}" if here else "there is no cue",
            "AtStart": f"no cue comes before{here}" if here else "no cue was played yet",
            "NoCue": f"there is no cue {number}",
            "NoSub": f"there is no submaster {number}",
            "NoGroup": f"there is no group {number}",
        }
        return f"refused: {told.get(name, name)}"

    def _master(self, words: list[str]) -> str:
        if len(words) < 2:
            return "grand master"
        records = self.show.subs if words[0] == "sub" else self.show.groups
        record = records.get(int(words[1]))
        return " ".join(words) + (f' "{record.name}"' if record and record.name else "")

    def _place(self, place: Place) -> Iterator[str]:
        yield "before the first cue" if place.cue is None else self._named(place.cue)
        if place.following is None:
            yield "no cue comes after it"
        else:
            yield f"GO goes to {self._named(place.following)}"
        yield f"grand master at {percent(place.grand)}"
        for words, level in place.masters.items():
            yield f"{self._master(words.split())} at {percent(level)}"
