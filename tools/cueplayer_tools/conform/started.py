"""Another maker's program that a trial starts, in folders of its own, and ends."""

import os
import shutil
import subprocess
import tempfile
import time
from collections.abc import Callable
from pathlib import Path

from cueplayer_tools.conform.peers import PATIENCE, PeerFault
from cueplayer_tools.line_protocol import Refused, printable


def need(*tools: str, package: str) -> None:
    """Refuses where a program is not there."""
    missing = [each for each in tools if not shutil.which(each)]
    if missing:
        raise Refused(f"{', '.join(missing)}: not on PATH; Debian's package {package} has it")


def version_of(*words: str) -> str:
    """The first version number in what a program prints."""
    quiet = dict(os.environ, QT_QPA_PLATFORM="offscreen")
    done = subprocess.run(words, capture_output=True, text=True, env=quiet, check=False)
    for word in (done.stdout + done.stderr).split():
        if word[0].isdigit() and "." in word:
            return printable(word.strip(".,"))
    return "unknown"


def end(process: subprocess.Popen[bytes]) -> None:
    """Asks a process to end, and kills it where it does not."""
    process.terminate()
    try:
        process.wait(PATIENCE)
    except subprocess.TimeoutExpired:
        process.kill()
        process.wait()


def wait_for(found: Callable[[], object], what: str, patience: float = 2 * PATIENCE) -> object:
    """Waits until something is there, and answers it."""
    until = time.monotonic() + patience
    while time.monotonic() < until:
        if answer := found():
            return answer
        time.sleep(0.05)
    raise PeerFault(f"{what} within {patience:g} s")


def told_by(*words: str) -> str:
    """What a command of the peer prints."""
    try:
        done = subprocess.run(words, capture_output=True, timeout=PATIENCE, check=False)
    except subprocess.TimeoutExpired as fault:
        raise PeerFault(f"{words[0]} gives no answer within {PATIENCE} s") from fault
    return done.stdout.decode("latin-1")


class Program:
    """A process, and a folder of its own that goes with it."""

    def __init__(self, name: str) -> None:
        self.name = name
        self.kept = tempfile.TemporaryDirectory(prefix="conform-")
        self.folder = Path(self.kept.name)
        self.process: subprocess.Popen[bytes] | None = None

    def start(self, *words: str | Path, **environment: str) -> None:
        none = subprocess.DEVNULL
        known = dict(os.environ, HOME=str(self.folder), XDG_RUNTIME_DIR=str(self.folder))
        self.process = subprocess.Popen(
            words, env=known | environment, stdin=none, stdout=none, stderr=none
        )

    def check(self) -> None:
        """Refuses to go on where the process has ended."""
        if self.process is None or self.process.poll() is not None:
            raise PeerFault(f"{self.name} has ended")

    def close(self) -> None:
        if self.process is not None and self.process.poll() is None:
            end(self.process)
        self.kept.cleanup()
