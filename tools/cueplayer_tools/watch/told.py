"""What a watch gives to the program, keeps and tells, wherever its datagrams come from."""

from collections.abc import Callable, Iterable
from dataclasses import dataclass, field

from cueplayer_tools.watch.feed import Feed
from cueplayer_tools.watch.files import AnyKept, Came
from cueplayer_tools.watch.rates import Rates
from cueplayer_tools.watch.state import Watched

# Milliseconds between two looks at the slots.
LOOK = 100


@dataclass
class Told:
    """The program that watches, the files that keep what came, and what is known by now."""

    feed: Feed
    kept: list[AnyKept]
    watched: Watched
    # Takes each line that is told.
    print_line: Callable[[str], None]
    rates: Rates = field(default_factory=Rates)
    # Datagrams that this machine had no room for.
    dropped: int = 0

    def clock(self, moment: int) -> None:
        """Gives the clock."""
        self.feed.give(b"%d\n" % moment)
        self.watched.pass_to(moment)
        for kept in self.kept:
            kept.clock(moment)

    def give(self, all_came: Iterable[Came]) -> None:
        """Gives datagrams."""
        lines = []
        for came in all_came:
            self.rates.add(came.data, came.source)
            lines.append(b"%d %s\n" % (came.moment, came.data.hex().encode()))
            for kept in self.kept:
                kept.datagram(came)
        self.feed.give(b"".join(lines))

    def tell(self, line: str) -> None:
        """A line of the program, and what follows from it."""
        self.print_line(line)
        for more in self.watched.take(line):
            self.print_line(more)

    def end(self) -> None:
        """Takes what the program says at the end."""
        for line in self.feed.end():
            self.tell(line)
        for kept in self.kept:
            kept.close()

    def last_slots(self) -> list[str]:
        """The slots of each universe, as they are now."""
        moment = self.watched.moment
        return [f"{moment} {u.number} {u.slots_line()}" for u in self.watched.universes.values()]


def came_of(moment: int, data: bytes, source: tuple[str, int], to: tuple[str, int]) -> Came:
    """A datagram as the program takes it: an empty one is too short, as one of a byte is; a moment
    alone is the clock."""
    return Came(moment, data or b"\0", source, to)
