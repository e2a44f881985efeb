"""Nights of `live` that are typed by chance, many at once, and what each left."""

import re
import subprocess
import tempfile
import time
import uuid
from concurrent.futures import ThreadPoolExecutor
from pathlib import Path
from typing import NamedTuple

from expected import live, show as shows
from expected.words import lines_of
from program import HEAD, PROGRAM

AT_ONCE = 16
PATIENCE = 60
# Where nothing listens.
NOWHERE = "127.0.0.1:9"
WHERE = re.compile(r"(\d+) where .*")
ANSWER = re.compile(r"\d+ (ok|refused \w+|where .*)")


class Typed(NamedTuple):
    """A night that is to be: its show, and what is typed, each part behind a pause in seconds."""

    show: bytes
    parts: tuple


class Left(NamedTuple):
    """What a night left: its status, the lines that it showed and recorded, and standard error."""

    status: int
    shown: list
    record: list
    err: bytes


def play_night(typed, cid=None, to=NOWHERE):
    """Plays a night, which ends with its input; under a CID of its own, unless one is given."""
    with tempfile.TemporaryDirectory() as name:
        files = ("show.asc", "night.play", "out", "err")
        show, record, out, err = (Path(name, file) for file in files)
        show.write_bytes(typed.show)
        words = ["live", show, "--to", to, "--cid", cid or str(uuid.uuid4()), "--record", record]
        # Named as `play` names a source, so that the packets of both are the same.
        words += ["--name", "cueplayer", "--end-with-input"]
        # A file takes all that is shown, however late it is read.
        with open(out, "wb") as shown, open(err, "wb") as told:
            streams = {"stdin": subprocess.PIPE, "stdout": shown, "stderr": told}
            night = subprocess.Popen([PROGRAM, *words], bufsize=0, **streams)
        try:
            for pause, part in typed.parts:
                time.sleep(pause)
                night.stdin.write(part)
            night.stdin.close()
            status = night.wait(PATIENCE)
        finally:
            night.kill()
        shown = out.read_bytes().decode().splitlines()
        lines = [line for line in lines_of(record.read_bytes()) if not line.startswith(HEAD)]
        return Left(status, shown, lines, err.read_bytes())


def play_nights(nights):
    """Plays nights side by side: each with what it left, in their order."""
    with ThreadPoolExecutor(AT_ONCE) as pool:
        yield from zip(nights, pool.map(play_night, nights))


def where_places(lines):
    """Of each line of `where` how many other lines stand above it, and its moment."""
    places, others = [], 0
    for line in lines:
        said = WHERE.fullmatch(line)
        if said:
            places.append((others, int(said[1])))
        others += not said
    return places


def expected_lines(show, record, shown):
    """What a night must have shown, by its record. What it showed says where `where` was asked."""
    return live.shown_lines(shows.read(show), record, where_places(shown))


def without_help(lines):
    """These lines without those of `help`, and how often that was asked."""
    others, times, place = [], 0, 0
    while place < len(lines):
        is_help = lines[place : place + len(live.HELP)] == live.HELP
        others += [] if is_help else [lines[place]]
        times += is_help
        place += len(live.HELP) if is_help else 1
    return others, times


def answers(lines):
    """The answers among these lines, as `ok`, `refused` or `where`, each with its moment."""
    found = (line.split()[:2] for line in lines if ANSWER.fullmatch(line))
    return [(word, int(at)) for at, word in found]
