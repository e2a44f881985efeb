"""What `live` shows of a night, by the lines of its record (FORMATS.md, "The lines of live")."""

from .cue_list import decimal
from .desk import Desk, command
from .follow_on import next_cue
from .words import moment, words_of

TICK = b"tick"
# What `help` shows.
HELP = """\
go, back              the next cue, the one before
goto 4.5              this cue; goto 4.5 in 3: in three seconds, goto 4.5 in 0: at once
sub 3 50, group 1 FL  a submaster, a group: 0 to 100 percent, FL, or H00 to HFF
master 80             the grand master
where                 the current cue, the next one, and what masters are at
end                   ends the night, dark; leave: receivers keep the light or drop it
""".splitlines()


class Night:
    """A night by the lines of its record, which are carried out in turn."""

    def __init__(self, show, base=1):
        self.show = show
        self.desk = Desk(show, base)

    def carry_out(self, line):
        """What is shown of a line: its answer, and behind it each move that came by it, the oldest
        first, with the moment of the move."""
        first, *words = words_of(line)
        at, before = moment(first), len(self.desk.moves)
        answer = self.answer(at, words)
        moves = self.desk.moves[before:]
        shown = [] if answer is None else [f"{at} {answer}"]
        return shown + [f"{moved} cue {decimal(cue)}" for cue, moved in moves]

    def answer(self, at, words):
        """What is shown of a call itself; nothing of a tick that was made and lost no packet."""
        if [word.lower() for word in words] == [TICK]:
            answer = self.desk.tick(at)
            return f"refused {answer}" if isinstance(answer, str) else None
        refusal = self.desk.order(at, command(words))
        return f"refused {refusal}" if refusal else "ok"

    def where(self, at):
        """The line that `where` shows: the current cue and the next, and which masters are up."""
        desk = self.desk
        current, after = desk.cue, next_cue(self.show, desk.cue)
        said = [f"{at} where"]
        said += [] if current is None else [f"cue {decimal(current)}"]
        said += [] if after is None else [f"next {decimal(after)}"]
        said += [f"master {desk.grand}"]
        for kind in ("sub", "group"):
            said += [
                f"{kind} {n}:{byte}" for n, byte in sorted(desk.masters[kind].items()) if byte
            ]
        return " ".join(said)


def shown_lines(show, record, asked=(), base=1):
    """All that a night shows, beside `help` and lost packets.

    The record does not say when `where` was asked. So `asked` has of each, in order, how many
    other lines stand above its own, and its moment.
    """
    night, lines, others, asked = Night(show, base), [], 0, list(asked)
    for line in (*record, None):
        while asked and asked[0][0] <= others:
            lines.append(night.where(asked.pop(0)[1]))
        came = night.carry_out(line) if line else []
        lines += came
        others += len(came)
    return lines
