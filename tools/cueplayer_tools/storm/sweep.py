"""A night at several rates of loss: what each does, as a table and as data."""

from dataclasses import dataclass, field, replace

from cueplayer_tools.storm.network import Cable, Network, Traffic
from cueplayer_tools.storm.night import Console, Plan
from cueplayer_tools.storm.report import duration, percent, share, table
from cueplayer_tools.storm.seen import Keep
from cueplayer_tools.storm.verdict import LENGTHS, Fault, Storm, storm_of

NUMBERS = ("time", "wrong", "dark", "darks", "longest", "off")
# A fault of the program, and the storm that it was found in.
Found = tuple[Storm, Fault]


@dataclass(frozen=True)
class Night:
    """What a storm does to all universes of a night together, in milliseconds."""

    time: int
    wrong: int
    dark: int
    darks: int
    longest: int
    off: int
    counts: tuple[int, ...]


def night_of(storm: Storm) -> Night:
    """What a storm does."""
    verdicts = storm.verdicts
    return Night(
        time=sum(each.whole for each in verdicts),
        wrong=sum(each.wrong for each in verdicts),
        dark=sum(each.dark for each in verdicts),
        darks=sum(stretch.dark > 0 for each in verdicts for stretch in each.stretches),
        longest=max(each.longest for each in verdicts),
        off=max(each.off for each in verdicts),
        counts=tuple(map(sum, zip(*(each.counts() for each in verdicts)))),
    )


@dataclass
class Rate:
    """What a rate of loss does to some nights, each of another seed."""

    loss: float
    nights: list[Night] = field(default_factory=list)

    @property
    def together(self) -> Night:
        """All nights, one after the other."""
        nights = self.nights
        return Night(
            time=sum(each.time for each in nights),
            wrong=sum(each.wrong for each in nights),
            dark=sum(each.dark for each in nights),
            darks=sum(each.darks for each in nights),
            longest=max(each.longest for each in nights),
            off=max(each.off for each in nights),
            counts=tuple(map(sum, zip(*(each.counts for each in nights)))),
        )

    def spread(self) -> dict[str, Night]:
        """Of each number the least, the median and the most of a night: of an even count of nights
        the lower one of the two in the middle."""
        middle = (len(self.nights) - 1) // 2
        places = {"least": 0, "median": middle, "most": len(self.nights) - 1}
        return {name: self._at(place) for name, place in places.items()}

    def _at(self, place: int) -> Night:
        numbers = {
            name: sorted(getattr(each, name) for each in self.nights)[place] for name in NUMBERS
        }
        counts = zip(*(each.counts for each in self.nights))
        return Night(**numbers, counts=tuple(sorted(each)[place] for each in counts))


def carry(
    plan: Plan, consoles: list[Console], network: Network
) -> dict[tuple[int, int], Traffic]:
    """What a network makes of the packets of a night."""
    traffic = {}
    for console, each in enumerate(consoles):
        cable = Cable(network, console, plan.first + each.late, plan.last + each.late)
        for universe, sent in plan.sent.items():
            moments = [moment + each.late for moment in sent] if each.late else sent
            traffic[console, universe] = cable.carry(universe, moments)
    return traffic


def blown(
    plan: Plan, consoles: list[Console], network: Network, keep: Keep | None = None
) -> Storm:
    """What a network makes of a night."""
    return storm_of(plan, consoles, carry(plan, consoles, network), network, keep)


@dataclass(frozen=True)
class Sweep:
    """Rates of loss, and how many nights each has, the seeds one after the other."""

    losses: list[float]
    nights: int = 1


def swept(
    plan: Plan, consoles: list[Console], network: Network, sweep: Sweep, keep: Keep | None = None
) -> tuple[list[Rate], list[Found]]:
    """What each rate does, and the faults that were found."""
    rates: list[Rate] = []
    faults: list[Found] = []
    for loss in sweep.losses:
        rate = Rate(loss)
        for night in range(sweep.nights):
            at = replace(network, loss=loss, seed=network.seed + night)
            storm = blown(plan, consoles, at, keep)
            rate.nights.append(night_of(storm))
            faults += [(storm, fault) for fault in storm.faults]
        rates.append(rate)
    return rates, faults


def _row(front: tuple[str, ...], night: Night) -> list[str]:
    return [
        *front, duration(night.time), duration(night.wrong), share(night.wrong, night.time),
        duration(night.longest), f"{night.off}", duration(night.dark), f"{night.darks}",
        *map(str, night.counts),
    ]  # fmt: skip


def sweep_table(rates: list[Rate]) -> str:
    """Of each rate the median night, and the least and the most of all seeds."""
    lengths = [f">= {duration(length)}" for length in LENGTHS]
    head = (
        *("loss", "seeds", "", "time", "wrong", "share"),
        *("longest", "most off", "dark", "dark times", *lengths),
    )
    rows = []
    for each in rates:
        front = (percent(each.loss), f"{len(each.nights)}")
        if len(each.nights) == 1:
            rows.append(_row((*front, "alone"), each.nights[0]))
            continue
        for name, night in each.spread().items():
            rows.append(_row((*front, name) if name == "median" else ("", "", name), night))
    return "\n".join(table(head, rows)) + "\n"


def _night_data(night: Night) -> dict[str, object]:
    lengths = list(map(str, LENGTHS))
    return {**vars(night), "counts": dict(zip(lengths, night.counts))}


def rate_data(rate: Rate) -> dict[str, object]:
    """All nights of a rate together, and their spread."""
    spread = {name: _night_data(night) for name, night in rate.spread().items()}
    return {"loss": rate.loss, "seeds": len(rate.nights), **_night_data(rate.together), **spread}
