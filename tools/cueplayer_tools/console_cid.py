"""The CID of this console, kept from night to night.

To a receiver the CID is the console (E1.31, 5.6): one that changed each night would be another
console each time, and one that begins again within seconds would be a second source.
"""

import os
import tempfile
import uuid
from collections.abc import Callable
from pathlib import Path


def cid_file() -> Path:
    """Where it is kept: in the user's configuration folder."""
    chosen = os.environ.get("XDG_CONFIG_HOME", "")
    folder = Path(chosen) if chosen.startswith("/") else Path.home() / ".config"
    return folder / "cueplayer" / "cid"


def _keep(file: Path, cid: uuid.UUID) -> None:
    """Writes a file that is not there yet: whole, or not at all."""
    file.parent.mkdir(parents=True, exist_ok=True)
    with tempfile.NamedTemporaryFile("w", dir=file.parent, encoding="ascii") as made:
        made.write(f"{cid}\n")
        made.flush()
        os.fchmod(made.fileno(), 0o644)
        # Where another desk made one meanwhile, that one counts.
        os.link(made.name, file)


def console_cid(tell: Callable[[str], None]) -> uuid.UUID:
    """The CID that is kept, which is made where there is none. Where it cannot be kept or read
    that is told, and the answer is one for this night alone."""
    file = cid_file()
    made = uuid.uuid4()
    try:
        if not file.exists():
            _keep(file, made)
    except FileExistsError:
        pass
    except (OSError, RuntimeError) as fault:
        reason = getattr(fault, "strerror", None) or fault
        tell(f"cannot keep a CID in {file}: {reason}; this night has one of its own: --cid {made}")
        return made
    try:
        return uuid.UUID(file.read_text("ascii").strip())
    except (OSError, ValueError) as fault:
        reason = getattr(fault, "strerror", None) or "it has no UUID"
        tell(f"cannot read a CID in {file}: {reason}; this night has one of its own: --cid {made}")
        return made
