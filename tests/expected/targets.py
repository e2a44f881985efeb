"""Where packets go, by the words of `--to` (FORMATS.md, "The command line")."""

import re
from typing import NamedTuple

MOST = 64
UNIVERSES = r"(?:(\d{1,9})(?:-(\d{1,9}))?=)?"
WORD = re.compile(UNIVERSES + r"(\d+)\.(\d+)\.(\d+)\.(\d+)(?::(\d{1,9}))?", re.ASCII)
GROUPS = (239, 255, 0, 0)


class Address(NamedTuple):
    host: tuple
    port: int

    def text(self):
        return ".".join(map(str, self.host)) + f":{self.port}"


class Target(NamedTuple):
    """Where packets go: the first and the last universe, both None for all, and the address."""

    first: int | None
    last: int | None
    address: Address

    def names(self, universe):
        return self.first is not None and self.first <= universe <= self.last


def target(word):
    """The target that a word spells, or None."""
    form = WORD.fullmatch(word)
    if not form:
        return None
    first, last, *host, port = form.groups()
    host = [int(part) if len(part) <= 9 else 256 for part in host]
    port = 5568 if port is None else int(port)
    first = None if first is None else int(first)
    last = first if last is None else int(last)
    fits = max(host) < 256 and port < 65536 and (first is None or 1 <= first <= last <= 63999)
    return Target(first, last, Address(tuple(host), port)) if fits else None


def addresses(universe, targets):
    """Where the packets of a universe go, in the order of the words."""
    named = [each for each in targets if each.names(universe)]
    chosen = named or [each for each in targets if each.first is None]
    group = (239, 255, universe >> 8, universe & 255)
    hosts = [group if each.address.host == GROUPS else each.address.host for each in chosen]
    return [Address(host, each.address.port) for host, each in zip(hosts, chosen)]


def misfit(universes, targets):
    """What is wrong for a show of these universes, ascending, or None."""
    for each in targets:
        for end in (each.first, each.last):
            if end is not None and end not in universes:
                return f"--to names universe {end}: the show does not have it"
    for universe in universes:
        found = addresses(universe, targets)
        if not found:
            return f"universe {universe} has no target: --to names none for it, and none for all"
        for at, address in enumerate(found):
            if address in found[at + 1 :]:
                return f"universe {universe} has the target {address.text()} twice"
    return None
