"""What FOLLOWON lines do.

`FOLLOWON T` of a cue makes the next cue go at the moment of that cue's move and T later, where no
other move was made first. A due move comes before a call of its own moment, several may come in a
chain, and after `end` none is due.
"""


def next_cue(show, cue):
    """The least cue above this one, or None."""
    return min((n for n in show.cues if n > (cue or 0)), default=None)


def due_moves(show, current, moved, moment):
    """The moves that are due up to a moment after the last one, as (cue, moment)."""
    moves = []
    while current is not None:
        follow, after = show.cues[current].follow, next_cue(show, current)
        if follow is None or after is None or moved + follow > moment:
            break
        current, moved = after, moved + follow
        moves.append((current, moved))
    return moves
