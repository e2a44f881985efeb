"""A copy of the repository's layout, in which a stand-in plays the prover's part."""

import hashlib
import os
import shutil
import subprocess
import tempfile
import time
import unittest
from pathlib import Path

from program import TOP

# A program that shows its words, its input and a status of its own, and takes any show.
MADE = """#!/bin/sh
case $1 in check | --help) exit 0 ;; esac
echo "words: $*"
cat
exit 3
"""
SHOWN = (3, "words: look - 1\na show\n", "")

# A prover that proves everything at once, and leaves that program. What it prints on the way is up
# to the file `proving` of the copy.
PROVER = """#!/bin/sh
echo "rt $*" >>"$PROVER_LOG"
if [ "$1" = version ]; then echo "kit of a test"; exit; fi
pwd >"$PROVER_TOP/place"
. "$PROVER_TOP/proving"
mkdir -p crates/cueplayer/out
cp "$PROVER_TOP/made" crates/cueplayer/out/cueplayer
echo "7 passed, 0 failed"
"""

# Tries of edits that tell their words.
EDITS = """#!/bin/sh
echo "edits: $*"
echo "3 passed, 0 failed"
"""

CRATES = """# A comment: no crate.
show: arrayvec
low: thiserror
middle: low show
cueplayer: middle clap
aside: low
"""


def sum_of(content: bytes) -> str:
    return hashlib.sha256(content).hexdigest()


class CopiedLayout(unittest.TestCase):
    """The scripts run in a copy, with a PATH on which the stand-in comes first."""

    # The name of the copy's folder.
    NAME: str | bytes = "a copy"

    def setUp(self) -> None:
        folder = tempfile.TemporaryDirectory()
        self.addCleanup(folder.cleanup)
        self.above = Path(folder.name)
        self.top = Path(
            os.fsdecode(os.path.join(os.fsencode(folder.name), os.fsencode(self.NAME)))
        )
        self.log = self.top / "log"
        self.built = self.top / "crates/cueplayer/out/cueplayer"
        self.program = self.top / "dist/cueplayer"
        self.provenance = self.top / "dist/PROVENANCE"
        self.source = self.top / "crates/show/src/lib.rt"
        for crate in ("cueplayer", "middle", "show", "low", "aside"):
            (self.top / "crates" / crate / "src").mkdir(parents=True)
            (self.top / "crates" / crate / "src/lib.rt").write_text(crate)
        (self.top / "crates.txt").write_text(CRATES)
        for name in ("HANDLES", "log"):
            (self.top / name).write_text("")
        for script in ("cueplayer", "build", "VERSION", ".ci/run", "dev/sources", "dev/dist"):
            (self.top / script).parent.mkdir(exist_ok=True)
            shutil.copy(TOP / script, self.top / script)
        self.write("bin/rt", PROVER)
        self.write("proving", "")
        self.write("tests/run", "#!/bin/sh\necho '4 passed, 0 failed'\n")
        self.write("dev/edits", EDITS)
        self.write("dev/wrong-programs", "#!/bin/sh\necho '2 passed, 0 failed'\n")
        self.ship(MADE)

    def write(self, name: str, content: str | bytes) -> Path:
        """An executable file of the copy."""
        file = self.top / name
        file.parent.mkdir(parents=True, exist_ok=True)
        file.write_bytes(content if isinstance(content, bytes) else content.encode())
        file.chmod(0o755)
        return file

    def sources(self) -> str:
        """The checksum of the copy's sources."""
        done = subprocess.run(
            [self.top / "dev/sources", "--sum"], capture_output=True, text=True, check=True
        )
        return done.stdout.strip()

    def ship(self, content: str | bytes, **said: str) -> None:
        """Makes this the program of dist/, with a PROVENANCE that says so, or what is given."""
        file = self.write("dist/cueplayer", content)
        known = {
            "version": "1.0.0",
            "toolchain": "kit of a test",
            "sources": self.sources(),
            "program": sum_of(file.read_bytes()),
            "built": "2026-11-26T10:20:30Z",
        }
        lines = (f"{key}: {value}\n" for key, value in (known | said).items())
        self.provenance.write_text("".join(lines))

    def start(self, script: str | Path, *words: str | Path, path: str | None = None, **options):
        """Starts a script of the copy, with all temporary files in a folder of the copy."""
        (self.top / "tmp").mkdir(exist_ok=True)
        environment = {
            "PATH": path or f"{self.top}/bin:{os.environ['PATH']}",
            "HOME": str(self.top / "home"),
            "PROVER_TOP": str(self.top),
            "PROVER_LOG": str(self.log),
            "TMPDIR": str(self.top / "tmp"),
        }
        started = subprocess.Popen(
            [self.top / script, *words],
            stdin=subprocess.PIPE,
            stdout=subprocess.PIPE,
            stderr=subprocess.PIPE,
            text=True,
            errors="surrogateescape",
            env=environment | options.pop("more", {}),
            **options,
        )
        self.addCleanup(started.wait)
        self.addCleanup(started.kill)
        return started

    def run_script(
        self, script: str | Path, *words: str | Path, **options
    ) -> tuple[int, str, str]:
        started = self.start(script, *words, **options)
        out, err = started.communicate("a show\n", timeout=60)
        return started.returncode, out, err

    def requests(self) -> list[str]:
        """What the prover was asked for, in order."""
        return self.log.read_text().splitlines()

    def wait_for(self, condition):
        for _ in range(600):
            found = condition()
            if found:
                return found
            time.sleep(0.05)
        self.fail("nothing came of it within 30 seconds")
