"""Running the program: by the script that these tools came with, which starts the one that
`CUEPLAYER` names, or its own; without a script, the one of `CUEPLAYER`, or one on the PATH."""

import os
import subprocess
from dataclasses import dataclass
from pathlib import Path

TOP = Path(__file__).resolve().parents[2]
SCRIPT = TOP / "cueplayer"

# What is started here tells its remarks: these tools read them, and hand them on to people.
os.environ["CUEPLAYER_REMARKS"] = "1"


def program() -> str:
    """The program to run. The script gives the record of a night a writer of its own."""
    return str(SCRIPT) if SCRIPT.is_file() else os.environ.get("CUEPLAYER") or "cueplayer"


def keeper() -> str:
    """The script that keeps nights going."""
    script = TOP / "cueplayer-night"
    return str(script) if script.is_file() else "cueplayer-night"


@dataclass(frozen=True)
class Ended:
    """How a run ended: a status other than 0 has its reason in `told`."""

    status: int
    printed: str
    told: str


def run(*words: str | os.PathLike[str], given: bytes = b"") -> Ended:
    """Runs the program with these words and this standard input."""
    done = subprocess.run([program(), *words], input=given, capture_output=True, check=False)
    return Ended(done.returncode, done.stdout.decode("latin-1"), done.stderr.decode("latin-1"))
