"""What a conversion tells: what was lost, is not played, is in doubt, was changed or left out, and
where."""

from collections.abc import Iterable
from dataclasses import dataclass, field

from cueplayer_tools.line_protocol import count_of, cue_word, printable
from cueplayer_tools.picture.curves import ranges

# Lost is what may have held light; not played are times and links.
LOST, NOT_PLAYED, DOUBT, CHANGED, LEFT_OUT = (
    "lost", "not played", "in doubt", "changed", "left out"
)  # fmt: skip
# What changes the light comes first.
ORDER = (LOST, NOT_PLAYED, DOUBT, CHANGED, LEFT_OUT)
LONGEST_SAID = 120
# Of a file that is no export there would be no end.
MOST_TOLD = 1_000
MOST_NAMED = 40


def cue_names(numbers: list[int]) -> str:
    """Cues by their numbers in thousandths, the first of them."""
    words = [cue_word(number) for number in numbers[:MOST_NAMED]]
    more = f" and {len(numbers) - MOST_NAMED} more" if len(numbers) > MOST_NAMED else ""
    return f"{'cue' if len(numbers) == 1 else 'cues'} {', '.join(words)}{more}"


def line_text(text: str) -> str:
    """What a line says, as one that can be printed."""
    return printable(" ".join(text.split()), LONGEST_SAID)


@dataclass
class Report:
    """What is to be told, by kind and text, each with its lines."""

    found: dict[tuple[str, str], list[int]] = field(default_factory=dict)
    # Texts on the whole file, which stand before those on its records.
    of_file: set[str] = field(default_factory=set)
    # The lines of words that were spelled anew with their values unchanged, and the first word.
    respelled: list[int] = field(default_factory=list)
    example: str = ""

    def add(self, kind: str, numbers: int | Iterable[int], text: str) -> None:
        lines = self.found.setdefault((kind, text), [])
        lines.extend([numbers] if isinstance(numbers, int) else numbers)

    def add_of_file(self, kind: str, numbers: Iterable[int], text: str) -> None:
        self.of_file.add(text)
        self.add(kind, numbers, text)

    def respell(self, number: int, word: str, anew: str) -> None:
        self.respelled.append(number)
        self.example = self.example or f"{printable(word)} to {anew}"

    def has(self, *kinds: str) -> bool:
        """Whether something of these kinds was found."""
        return any(kind in kinds for kind, _ in self.found)

    def count(self, kind: str) -> int:
        return sum(each == kind for each, _ in self.found)

    def lines(self) -> list[str]:
        """What is to be told, the worst first, and of a kind in the order of the lines."""
        told = []
        for kind in ORDER:
            of_kind = [(lines, text) for (each, text), lines in self.found.items() if each == kind]
            of_kind.sort(key=lambda each: (each[1] not in self.of_file, min(each[0], default=0)))
            told += [f"{_where(lines)}{kind}: {text}" for lines, text in of_kind[:MOST_TOLD]]
            if len(of_kind) > MOST_TOLD:
                told.append(f"{kind}: {len(of_kind) - MOST_TOLD:,} more of this kind")
            if kind == CHANGED and self.respelled:
                words = f"{count_of(len(self.respelled), 'word')} respelled, as {self.example}"
                told.append(f"{_where(self.respelled)}{CHANGED}: {words}: the values are the same")
        return told


def _where(lines: list[int]) -> str:
    numbers = sorted(set(lines))
    if not numbers:
        return ""
    return f"line{'s' if len(numbers) > 1 else ''} {ranges(numbers)}: "
