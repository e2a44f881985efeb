"""The functions of a source file: where the body of each stands, and what `rattle` calls it."""

import functools
import re
from dataclasses import dataclass
from pathlib import Path

from wrong_bodies.crates import files, source

# Comments, strings and characters: nothing in them counts.
TEXTS = re.compile(
    r"""//[^\n]*|/\*.*?\*/|b?r(\#*)".*?"\1|"(?:[^"\\]|\\.)*"|"""
    r"""(?:(?<!\w)|(?<=\bb))'(?:\\[^\n']+|[^'\\\n])'""",
    re.S,
)
# What opens, ends or names an item.
MARKS = re.compile(
    r"\[[^][{}]*\]|[{}]|\b(fn|impl|trait|mod|struct|enum|macro_rules|ghost)\b(?:\s*(\w+))?|;"
)
# Braces behind these are a clause and no body.
CLAUSE = re.compile(r"(?:\b(?:requires|ensures)\*?\s*\w*\s*|\bghost\s+\w+\s*:\s*)\Z")
# What may follow a type's name where it has arguments.
MORE = r"[+\w]*"


@dataclass(frozen=True)
class Function:
    """A function's body: where it stands, and the function's name as a pattern.

    `asked` is what to have checked for it: its name, or its module where that is not known.
    """

    start: int
    end: int
    pattern: str
    asked: str


@dataclass(frozen=True)
class Scope:
    """A module, a trait or an impl; `asked` where its functions cannot be asked for by name."""

    name: str
    asked: str = ""


def closing(text: str, at: int) -> int:
    """The end of the braces that open at this place."""
    depth = 0
    for brace in re.finditer(r"[{}]", text[at:]):
        depth += 1 if brace[0] == "{" else -1
        if depth == 0:
            return at + brace.end()
    return len(text)


def module(crate: str, path: str) -> str:
    """The module of a file, as `rattle` names it."""
    parts = Path(path).with_suffix("").parts[1:]
    return "::".join([crate, *[part for part in parts if part not in ("lib", "main", "mod")]])


@functools.cache
def home(crate: str, name: str) -> str | None:
    """The module that declares a type: there `rattle` names the type's own methods."""
    declared = re.compile(rf"(?m)^\s*(?:pub(?:\([^)]*\))?\s+)?(?:struct|enum)\s+{name}\b")
    for path in files(crate, "src"):
        if declared.search(source(crate, path)):
            return module(crate, path)
    return None


def type_name(words: str, bound: set[str]) -> tuple[str, bool]:
    """The last name of a type, and whether it has arguments other than the impl's own."""
    name, _, rest = words.strip().lstrip("&").partition("<")
    arguments = [word.strip() for word in rest.rstrip("> ").split(",") if word.strip()]
    is_open = any(word[0] != "'" and word not in bound for word in arguments)
    return name.strip().split("::")[-1], is_open


def impl_parameters(head: str) -> tuple[set[str], str]:
    """The type parameters of an impl, and the rest of its head."""
    if not head.startswith("<"):
        return set(), head
    depths = [head[: at + 1].count("<") - head[: at + 1].count(">") for at in range(len(head))]
    end = depths.index(0) + 1
    return set(re.findall(r"\b[A-Z]\w*", head[:end])), head[end:]


def impl_scope(crate: str, outer: str, head: str) -> Scope:
    """The scope of an impl with this head: `module::LinesIterator` for `Iterator for Lines`."""
    bound, rest = impl_parameters(re.split(r"\bwhere\b", head)[0].strip())
    trait, _, of_type = rest.rpartition(" for ")
    (name, is_open), (of_trait, is_trait_open) = type_name(of_type, bound), type_name(trait, bound)
    if not trait and not is_open:
        return Scope(f"{home(crate, name) or outer}::{name}")
    if is_trait_open:
        of_trait += type_name(trait.partition("<")[2].rstrip("> "), bound)[0] + MORE
    pattern = name + (MORE if is_open else "") + of_trait
    return Scope(f"{outer}::{pattern}", outer if is_open or is_trait_open else "")


class Reader:
    """Goes through the text of a file, and finds its functions."""

    def __init__(self, crate: str, path: str, text: str) -> None:
        self.crate = crate
        self.text = TEXTS.sub(lambda found: re.sub(r"[^\n]", " ", found[0]), text)
        self.scopes = [Scope(module(crate, path))]
        self.head: re.Match[str] | None = None
        self.at = 0
        self.found: list[Function] = []

    def read(self) -> list[Function]:
        """All functions of the file that have a body."""
        while mark := MARKS.search(self.text, self.at):
            self.at = mark.end()
            if mark[1]:
                self.head = self.head or mark
            elif mark[0] == ";":
                self.head = None
            elif mark[0] == "}":
                self.scopes = self.scopes[:-1] or self.scopes
            elif mark[0] == "{":
                self.open(mark.start())
        return self.found

    def open(self, at: int) -> None:
        """Takes braces that open here: a body, a scope, or what is passed over."""
        scope, head = self.scopes[-1], self.head
        kind = head[1] if head else ""
        if head and kind == "fn" and head[2]:
            self.at = closing(self.text, at)
            if CLAUSE.search(self.text[head.end() : at]):
                return
            name = f"{scope.name}::{head[2]}"
            self.found.append(Function(at, self.at, name, scope.asked or name))
        elif head and kind == "impl":
            self.scopes.append(
                impl_scope(self.crate, scope.name, self.text[head.start() + 4 : at])
            )
        elif head and kind in ("trait", "mod"):
            self.scopes.append(Scope(f"{scope.name}::{head[2]}", scope.asked))
        else:
            self.at = closing(self.text, at)
        self.head = None


@functools.cache
def functions(crate: str, path: str, text: str) -> list[Function]:
    """The functions of a file with this text."""
    return Reader(crate, path, text).read()


def without_bodies(crate: str, path: str, text: str) -> str:
    """The text of a file without the bodies of its functions."""
    for function in reversed(functions(crate, path, text)):
        text = text[: function.start] + text[function.end :]
    return text


def plain(text: str) -> str:
    """A text without its comments and spaces."""
    return re.sub(r"//[^\n]*|\s+", "", text)
