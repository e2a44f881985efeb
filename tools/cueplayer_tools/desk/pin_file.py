"""The PINs of a desk, kept from start to start in a file that only its user can read."""

import os
import re
import stat
import tempfile
from collections.abc import Callable
from pathlib import Path

from cueplayer_tools.line_protocol import Refused, printable

_CONTENT = re.compile(r"play (\d{6})\nwatch (\d{6})\n", re.ASCII)
_MOST = 100


def state_folder() -> Path:
    """Where a user's programs keep what lasts from start to start."""
    chosen = os.environ.get("XDG_STATE_HOME", "")
    folder = Path(chosen) if chosen.startswith("/") else Path.home() / ".local/state"
    return folder / "cueplayer"


def pin_file(night: str | None, port: int) -> Path:
    """The file of a desk at this port: in the folder of its night, or in the user's own. Each port
    has PINs of its own, so that new ones at one desk leave none valid at another."""
    return (state_folder() if night is None else Path(night)) / f"desk-{port}.pins"


class PinFile:
    """The file. What is wrong with it is told: no night waits for its PINs."""

    def __init__(self, file: Path, tell: Callable[[str], None]) -> None:
        self.file = file
        self.tell = tell

    def read(self) -> tuple[str, str] | None:
        """The PIN that plays and the one that watches; None where new ones have to be made."""
        try:
            return self._read()
        except FileNotFoundError:
            return None
        except (OSError, Refused) as fault:
            reason = getattr(fault, "strerror", None) or fault
            self.tell(f"{printable(str(self.file), 300)}: {reason}: the PINs are new")
            return None

    def _read(self) -> tuple[str, str]:
        flags = os.O_RDONLY | os.O_NOFOLLOW | os.O_NONBLOCK | os.O_CLOEXEC
        with open(os.open(self.file, flags), "rb") as file:
            found = os.fstat(file.fileno())
            if not stat.S_ISREG(found.st_mode):
                raise Refused("not a file")
            if found.st_uid != os.geteuid() or found.st_mode & 0o077:
                raise Refused("others can read it")
            pins = _CONTENT.fullmatch(file.read(_MOST).decode("latin-1"))
        if pins is None or pins[1] == pins[2]:
            raise Refused("it has no two PINs")
        return pins[1], pins[2]

    def write(self, play: str, watch: str) -> None:
        """Keeps these in place of those before: whole, or not at all."""
        try:
            self.file.parent.mkdir(mode=0o700, parents=True, exist_ok=True)
            # What makes it gives it to its user alone.
            number, made = tempfile.mkstemp(prefix=f"{self.file.name}.", dir=self.file.parent)
            try:
                with open(number, "w", encoding="ascii") as file:
                    file.write(f"play {play}\nwatch {watch}\n")
                os.rename(made, self.file)
            except OSError:
                os.unlink(made)
                raise
        except (OSError, RuntimeError) as fault:
            reason = getattr(fault, "strerror", None) or fault
            name = printable(str(self.file), 300)
            self.tell(f"cannot keep the PINs in {name}: {reason}; the next start has new ones")
