"""The checks of one crate with edits in it."""

import os
import shutil
import subprocess
import tempfile
from collections.abc import Iterable, Set
from pathlib import Path

from wrong_bodies.crates import CRATES, PARTS, below, kit, library, listed, source
from wrong_bodies.edit import Edit

# The statuses of a check that judged: all is proved, or something is not.
JUDGED = (0, 1)


def words(crate: str) -> list[str]:
    """The command that checks a crate in the folder where it runs, over what `rt ci` built."""
    deps, lows = listed()[crate], below(crate)
    libraries = {
        dep: library(dep) if dep in listed() else kit() / "rlibs" / f"{dep}.rlib"
        for dep in ["std", *deps]
    }
    is_program = (CRATES / crate / "src/main.rt").is_file()
    return [
        str(kit() / "bin/rattle"),
        "check",
        *("--crate-name", crate, "src/main.rt" if is_program else "src/lib.rt"),
        *("-L", f"dependency={kit()}/rlibs"),
        *(word for dep, file in libraries.items() for word in ("--extern", f"{dep}={file}")),
        *(word for low in lows for word in ("-L", f"dependency={library(low).parent}")),
        *("--antt-project", f"{kit()}/rattle/logic/antt-project.json"),
        *("--logic-built", f"{kit()}/logic_built"),
        *("--links", f"{crate}="),
        *("--jobs", "1"),
    ]


def edited(edits: Iterable[Edit]) -> dict[str, str]:
    """The texts of the files that these edits change together."""
    texts = {path: new for edit in edits for path, new in edit.texts if not edit.bodies}
    bodies = [(edit.texts[0][0], body) for edit in edits for body in edit.bodies]
    for path, body in sorted(bodies, key=lambda each: -each[1].function.start):
        text = texts.get(path, source(edit_crate(edits), path))
        texts[path] = text[: body.function.start] + body.text + text[body.function.end :]
    return texts


def edit_crate(edits: Iterable[Edit]) -> str:
    """The crate that these edits are of."""
    return next(iter(edits)).crate


def asked(edits: Iterable[Edit]) -> Set[str]:
    """The functions to have checked for these edits; none asks for the whole crate."""
    if not all(edit.bodies for edit in edits):
        return set()
    return {body.function.asked for edit in edits for body in edit.bodies}


class Trial:
    """The checks of one crate, each over what those before it proved."""

    def __init__(self, crate: str, kept: str) -> None:
        self.crate = crate
        self.kept = kept
        self.checks = 0
        self.seconds = 0.0

    def check(self, edits: list[Edit], only: Set[str]) -> str:
        """What the prover says of a copy of the crate with these edits.

        Without a verdict the last line begins with `no verdict:`.
        """
        with tempfile.TemporaryDirectory(prefix="edits-") as room:
            for part in PARTS:
                if (CRATES / self.crate / part).is_dir():
                    shutil.copytree(CRATES / self.crate / part, f"{room}/{part}")
            for path, text in edited(edits).items():
                Path(room, path).write_text(text, encoding="utf-8")
            said, status = self.run(room, only)
        self.checks += 1
        return said if status in JUDGED else f"{said}\nno verdict: status {status}"

    def run(self, room: str, only: Set[str]) -> tuple[str, int]:
        """What a check in this folder says, and its status."""
        command = [*words(self.crate), "--incremental", self.kept]
        command += [word for name in sorted(only) for word in ("--only", name)]
        with tempfile.TemporaryFile("w+", errors="replace") as told:
            check = subprocess.Popen(
                command,
                cwd=room,
                stdin=subprocess.DEVNULL,
                stdout=told,
                stderr=subprocess.STDOUT,
            )
            _, status, used = os.wait4(check.pid, 0)
            # Popen waits for it no more.
            check.returncode = os.waitstatus_to_exitcode(status)
            self.seconds += used.ru_utime + used.ru_stime
            told.seek(0)
            return told.read(), check.returncode
