"""Small receivers of several universes, of which each breaks a rule by what its universes share."""

import small_receivers
from small_receivers import Small, two


def node(kind, universes):
    """The receivers of the universes of a node."""
    receivers = {universe: kind(universe) for universe in universes}
    first = next(iter(receivers.values()))
    for each in receivers.values():
        each.shared = first.shared
    return receivers


class OneNumberForAllUniverses(Small):
    """The second universe of each console is dark."""

    rule = "universes of a source"
    caught = ("one that is not shown", "5 behind", "in turn", "two sources")

    def take(self, moment, data, sender):
        if self.is_packet(data) and self.is_known(data) and self.has_levels(data):
            cid, number = data[22:38], data[111]
            last, universe, at = self.shared.get(cid, (number - 1, 0, moment))
            # A packet that comes to all receivers of the node counts once.
            is_same = (last, universe, at) == (number, two(data, 113), moment)
            is_new = not is_same and (last - number) % 256 >= 20
            if is_new or moment - at > self.loss:
                self.shared[cid] = number, two(data, 113), moment
            elif not is_same:
                return
        super().take(moment, data, sender)


class OnePriorityForAllUniverses(Small):
    """A console of higher priority in another universe silences this one."""

    rule, caught = "universes of a source", ("priorities", "one lost")

    def take(self, moment, data, sender):
        if self.is_packet(data) and self.has_levels(data) and not self.is_preview(data):
            self.shared[data[22:38]] = moment, 0 if self.ends(data) else data[108]
        super().take(moment, data, sender)

    def look(self, moment):
        there = [rank for at, rank in self.shared.values() if moment - at < self.loss]
        self.forget(moment)
        lit = [one.priority for one in self.sources.values() if not one.is_over]
        return super().look(moment) if max(there, default=0) <= max(lit, default=0) else {}


class EndsAllUniverses(Small):
    rule, caught = "universes of a source", ("one ended",)

    def is_here(self, data):
        return super().is_here(data) or self.ends(data)


class LosesAllOrNone(Small):
    """A universe of a source stays as long as another one goes on."""

    rule, caught = "universes of a source", ("one lost",)

    def take(self, moment, data, sender):
        if self.is_packet(data) and not self.is_here(data) and data[22:38] in self.sources:
            self.sources[data[22:38]].moment = moment
        super().take(moment, data, sender)


class DeafAfterSources(Small):
    """Has a table of sources, and never frees a place in it."""

    rule, most = "lost sources", 14

    def take(self, moment, data, sender):
        if len(data) >= 126:
            self.shared.setdefault(data[22:38], None)
            if data[22:38] not in list(self.shared)[: self.most]:
                return
        super().take(moment, data, sender)


BREAKING = (
    *small_receivers.BREAKING,
    OneNumberForAllUniverses,
    OnePriorityForAllUniverses,
    EndsAllUniverses,
    LosesAllOrNone,
    DeafAfterSources,
)
