"""The crates of the tree, and the toolchain that proves them."""

import functools
import re
import subprocess
from pathlib import Path

from generators.marks import TOP

CRATES = TOP / "crates"
PARTS = ("src", "specs", "proofs")


@functools.cache
def kit() -> Path:
    """The folder of the toolchain."""
    told = subprocess.run(["rt", "doc"], check=True, capture_output=True, text=True).stdout
    return Path(told).parent


@functools.cache
def logic() -> str:
    """What the toolchain proves by: kits of one logic give one verdict."""
    told = subprocess.run(["rt", "version"], check=True, capture_output=True, text=True).stdout
    found = re.search(r"\blogic (\w+)", told)
    if not found:
        raise SystemExit(f"dev/edits: rt version names no logic: {told}")
    return found[1]


@functools.cache
def listed() -> dict[str, list[str]]:
    """What crates.txt has each crate stand on, libraries of the toolchain among them."""
    rows = [
        line.partition("#")[0].partition(":")
        for line in (TOP / "crates.txt").read_text().splitlines()
    ]
    return {name.split()[0]: deps.split() for name, _, deps in rows if name.strip()}


def below(crate: str) -> list[str]:
    """The crates of the tree that a crate stands on, the lowest first."""
    deps = [dep for dep in listed()[crate] if dep in listed()]
    return list(dict.fromkeys([low for dep in deps for low in [*below(dep), dep]]))


@functools.cache
def source(crate: str, path: str) -> str:
    """The text of a file of a crate."""
    return (CRATES / crate / path).read_text(encoding="utf-8")


@functools.cache
def files(crate: str, part: str) -> list[str]:
    """The paths of the files of a crate's src, specs or proofs, within the crate."""
    folder = CRATES / crate
    found = (folder / part).rglob("*")
    return sorted(str(file.relative_to(folder)) for file in found if file.is_file())


@functools.cache
def size(crate: str) -> int:
    """How many lines a crate's sources and proofs have."""
    return sum(source(crate, path).count("\n") for part in PARTS for path in files(crate, part))


def library(crate: str) -> Path:
    """Where `rt ci` leaves what it proved of a crate."""
    return CRATES / crate / "out/rlib" / f"{crate}.rlib"


def is_current(crate: str) -> bool:
    """Whether there is a library of a crate, made after the last change of its files."""
    paths = [path for part in PARTS for path in files(crate, part)]
    changed = max((CRATES / crate / path).stat().st_mtime for path in paths)
    return library(crate).exists() and library(crate).stat().st_mtime >= changed
