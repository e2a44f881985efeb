"""The night of a premiere: its folder, the show in it, and who keeps it going."""

import os
import shlex
import shutil
import subprocess
import time
from dataclasses import dataclass
from pathlib import Path

from cueplayer_tools.desk.record import folder_beside
from cueplayer_tools.line_protocol import Refused, printable
from cueplayer_tools.night_folder import NightFolder
from cueplayer_tools.premiere.show import Made
from cueplayer_tools.program import keeper

# For how long a `live` may be away, in seconds.
PATIENCE = 5.0
# A keeper waits for the card of a night; words that are just typed may name a wrong one.
_WAITS = " live waits for its network card: "
# What is said of any night, or of words in general.
_NO_REASONS = ("night: ", "words refused", "show: ", "sends: ", "record: ")


def usual_folder(show: str) -> Path:
    """Where the nights of a show are, if no other folder is named."""
    folder = folder_beside(show)
    if folder is None:
        raise Refused("nothing can be written beside the show, nor here: --night FOLDER names one")
    return folder / f"{Path(show).stem}-night"


def named(path: Path) -> str:
    return printable(str(path), 300)


@dataclass(frozen=True)
class Premiere:
    """The folder of a night, and what was named for it."""

    path: Path

    @property
    def folder(self) -> NightFolder:
        return NightFolder(str(self.path))

    def is_played(self) -> bool:
        """Whether a `live` plays in it, or somebody is about to start one."""
        return self.folder.is_played() or self.folder.is_kept()

    def broke_off(self) -> bool:
        """Whether a night has begun in it and not ended."""
        return self.folder.folder.has_record() and not self.folder.has_ended()

    def when(self) -> str:
        """When its record was written last."""
        written = (self.path / "record").stat().st_mtime
        return time.strftime("%Y-%m-%d %H:%M", time.localtime(written))

    def command(self, word: str) -> str:
        """What a shell takes for a command of this night."""
        script = "cueplayer-night" if shutil.which("cueplayer-night") else keeper()
        return shlex.join([script, str(self.path), word])

    def keep_show(self, name: str, made: Made) -> Path:
        """Puts the show into the folder, and the report of its conversion: what is played does not
        change if the file it comes from does. One that somebody has changed here is put aside."""
        try:
            self.path.mkdir(exist_ok=True)
            show = self.path / f"{Path(name).stem}.asc"
            if show.is_file() and show.read_bytes() != made.content:
                written = time.localtime(show.stat().st_mtime)
                when = time.strftime("%Y-%m-%dT%H%M%S", written)
                os.rename(show, show.with_name(f"{show.stem}-{when}.asc"))
            show.write_bytes(made.content)
            if made.report:
                show.with_suffix(".report").write_text("\n".join(made.report) + "\n", "utf-8")
        except OSError as fault:
            raise Refused(f"{named(self.path)}: {fault.strerror}") from fault
        return show

    def _run(self, *words: str) -> tuple[int, list[str]]:
        """The status of a command of the night, and what it says."""
        done = subprocess.run(
            [keeper(), str(self.path), *words],
            stdin=subprocess.DEVNULL,
            stdout=subprocess.PIPE,
            stderr=subprocess.STDOUT,
            start_new_session=True,
            check=False,
        )
        return done.returncode, [printable(line, 300) for line in done.stdout.splitlines()]

    def start(self, *words: str) -> list[str]:
        """Begins a night with these words of `live`, or goes on with the one in the folder; what is
        said of it. Refused with the reason where nothing plays then; a night that was to go on
        begins by itself once its network card is there."""
        # Who plays a premiere is not to look for words while the stage is dark.
        status, lines = self._run("start", *words, "--if-refused", "begin", "--background")
        is_waiting = any(_WAITS in line for line in lines)
        if not status and not is_waiting:
            return lines
        if is_waiting and words:
            self._run("halt")
        reasons = [line for line in lines if not line.startswith(_NO_REASONS)]
        then = "the night goes on as soon as the card is there" if is_waiting else ""
        told = "; ".join([*reasons, "nothing was begun" if words else then]).rstrip("; ")
        raise Refused(told or f"cueplayer-night: status {status}")

    def await_live(self) -> None:
        """Waits until a `live` plays, which may just be started again; Refused where none does, as
        while its keeper waits for a network card."""
        until = time.monotonic() + PATIENCE
        while not self.folder.is_played():
            if time.monotonic() > until:
                told = "its keeper goes on trying; the last lines say why"
                raise Refused(f"nobody plays the night yet: {told}: {named(self.path / 'replies')}")
            time.sleep(0.05)
