"""Each public call of the crates, with the clauses of its contract and when it refuses, as
`dev/calls` prints them."""

import re
from collections.abc import Iterator
from pathlib import Path
from typing import NamedTuple

from generators.marks import TOP

# Whose calls no clause can describe, since they are of devices that do not tell.
UNTOLD = ("system_devices",)
# What a device takes is its own: one over memory grows.
OF_DEVICES = ("Datagrams::", "Feed::", "Link::", "Output::")
# In a signature, what says that memory may be asked for: the allocator, or want of memory.
MAY_GROW = re.compile(r"\b(alloc|rt): |AllocError|BuildFault")
END = re.compile(r"\n\s*(requires|ensures|ghost|decreases|where)\b|[{;]")
FUNCTION = re.compile(r"^( *)(pub )?(?:const )?fn (\w+)", re.M)
IMPL = r"impl(?:<[^>]*>)? (?:([\w:]+)(?:<[^>]*>)? for )?(\w+)"
OWNER = re.compile(rf"^(?:{IMPL}|pub trait (\w+))", re.M)
# The bounds of type parameters, in front of the clauses.
BOUNDS = re.compile(r"\s*where\b[^{;]*?,(?=\s*(?:requires|ensures)\b)")
# A clause of a contract, with the comment above it; the name may be left out.
CLAUSE = re.compile(r"\s*(?://[^\n]*\n\s*)*(requires|ensures)\*?(?: (\w+))? \{")
# The doc comment above a function; in it, when the call refuses.
DOC = re.compile(r"((?:^ *///[^\n]*\n)+)(?: *#\[[^\n]*\n)*\Z", re.M)
ERRORS = re.compile(r"^# Errors\n\n(.*?)(?:\n\n|\Z)", re.M | re.S)
LAWS = ("laws.rt", "law.rt")
SENTENCE = re.compile(r".*?\.(?=\s|$)", re.S)


class Call(NamedTuple):
    """A public call: its signature, and what its contract and its documentation say."""

    said: str
    under: list[str]
    clauses: list[str]
    doc: str

    def may_grow(self) -> bool:
        """What keeps the allocator for later, and cannot answer want of memory, takes none."""
        asks = self.can_refuse() and MAY_GROW.search(self.said)
        return bool(asks) and not self.said.startswith(OF_DEVICES)

    def name(self) -> str:
        return re.split("[(<]", self.said)[0]

    def can_refuse(self) -> bool:
        return bool(re.search("-> (Result|Option)<", self.said))

    def does_something(self) -> bool:
        """Whether it answers, or may change what it is given."""
        return "->" in self.said or "&mut" in self.said

    def refuses(self) -> str:
        """When it answers a fault or `None`: what its documentation says of errors, else of `None`,
        else what it answers."""
        if not self.can_refuse():
            return ""
        if errors := ERRORS.search(self.doc):
            return in_words(errors[1])
        sentences = [in_words(found[0]) for found in SENTENCE.finditer(self.doc)]
        return next((each for each in sentences if "None" in each), "".join(sentences[:1]))

    def told(self) -> str:
        """The call in lines: its signature, and what is known of it."""
        rows = {
            "requires": " ".join(self.under),
            "ensures": " ".join(self.clauses),
            "memory": "may grow" if self.may_grow() else "",
            "refuses": self.refuses(),
        }
        return "".join(
            [f"{self.said}\n", *(f"    {name:<9}{text}\n" for name, text in rows.items() if text)]
        )


def in_words(doc: str) -> str:
    """A part of a documentation in one line, without its links."""
    return re.sub(r"\[(`[^`]*`)\](?:\([^)]*\))?", r"\1", re.sub(r"\s+", " ", doc).strip())


def end_of_signature(text: str, start: int) -> int:
    depth, end = 0, start
    while depth or not END.match(text, end):
        depth += {"(": 1, "[": 1, ")": -1, "]": -1}.get(text[end], 0)
        end += 1
    return end


def in_one_line(text: str) -> str:
    """A signature, from the function's name on."""
    return re.sub(r",? \)", ")", re.sub(r"\s+", " ", text).strip()).replace("( ", "(")


def after_braces(text: str, at: int) -> int:
    """The place behind the brace that ends what was opened before this place."""
    depth = 1
    while depth:
        depth += {"{": 1, "}": -1}.get(text[at], 0)
        at += 1
    return at


def contract(text: str, at: int) -> tuple[list[str], list[str]]:
    """The names of the conditions and clauses that stand here; one without a name is its word."""
    found: dict[str, list[str]] = {"requires": [], "ensures": []}
    if bounds := BOUNDS.match(text, at):
        at = bounds.end()
    while clause := CLAUSE.match(text, at):
        found[clause[1]].append(clause[2] or clause[1])
        at = after_braces(text, clause.end())
    if not re.match(r"\s*[{;]", text[at:]):
        raise ValueError("a contract that is not read to its end: " + text[at : at + 60])
    return found["requires"], found["ensures"]


def documentation(above: str) -> str:
    """The doc comment that ends this text, without its marks."""
    doc = DOC.search(above)
    return re.sub(r"(?m)^ */// ?", "", doc[1]).strip() if doc else ""


def exports(crate: Path) -> set[str]:
    """The names that a crate's library exports; a program has none."""
    file = crate / "src/lib.rt"
    library = file.read_text() if file.exists() else ""
    uses = re.findall(r"pub use (\w+)::(?:\{([^}]*)\}|(\w+));", library)
    inside = {name for _, *some in uses for name in re.findall(r"\w+", " ".join(some))}
    if "pub mod memory" in library:
        memory = [crate / "src/memory.rt", *(crate / "src/memory").glob("*.rt")]
        inside |= {
            name
            for file in memory
            if file.exists()
            for name in re.findall(r"pub struct (\w+)", file.read_text())
        }
    return inside


def calls_in(file: Path, public_names: set[str]) -> Iterator[Call]:
    """The public calls that a file defines."""
    text = file.read_text()
    owners = [(m.start(), m[1], m[2] or m[3], bool(m[3])) for m in OWNER.finditer(text)]
    is_laws = file.name == "laws.rt"
    for found in FUNCTION.finditer(text):
        end = end_of_signature(text, found.start(3))
        said = in_one_line(text[found.start(3) : end])
        under, clauses = contract(text, end)
        if not found[1]:
            public = found[2] and (is_laws or found[3] in public_names)
            said = f"laws::{said}" if is_laws else said
        else:
            above = [each for each in owners if each[0] < found.start()]
            begin, trait, owner, is_trait = above[-1]
            public = owner in public_names and (is_trait or found[2] or trait == "Iterator")
            said = f"{owner}::{said}"
            if trait == "Iterator":
                # Such a `next` has its contract from the trait, in these words.
                clauses = re.findall(r"(?m)^    ghost (\w+) = ", text[begin : found.start()])
        if public:
            yield Call(said, under, clauses, documentation(text[: found.start()]))


def calls_of(crate: Path) -> list[Call]:
    """The public calls of a crate, by their names, and its laws behind them."""
    names, calls = exports(crate), []
    for file in (crate / "src").rglob("*.rt"):
        if "tests" not in file.relative_to(crate).as_posix():
            calls += [(file.name in LAWS, call) for call in calls_in(file, names)]
    return [call for _, call in sorted(calls)]


def crates() -> list[str]:
    """The names of all crates, in the order of crates.txt."""
    lines = (TOP / "crates.txt").read_text().splitlines()
    return [line.partition(":")[0] for line in lines if line]


def all_calls() -> dict[str, list[Call]]:
    """Those of each crate that has any, in the order of crates.txt."""
    found = {name: calls_of(TOP / "crates" / name) for name in crates() if name not in UNTOLD}
    return {name: calls for name, calls in found.items() if calls}


def purpose(crate: str) -> str:
    """What a crate is for: the first sentence of its README."""
    page = (TOP / "crates" / crate / "README.md").read_text()
    found = SENTENCE.match(page.partition("\n\n")[2])
    return in_words(found[0]) if found else ""
