"""What the tests share: running the program, show texts, and the packet that is expected."""

import os
import re
import subprocess
import tempfile
import unittest
from pathlib import Path
from typing import NamedTuple

TOP = Path(__file__).resolve().parents[2]
SHIPPED = TOP / "dist/cueplayer"
PROGRAM = Path(os.environ.get("CUEPLAYER") or SHIPPED).resolve()

CID = "c0ffee00-0000-4000-8000-00000000e131"
# To where nobody listens.
TO_NOBODY = ("--to", "127.0.0.1:9", "--cid", CID)

# The locks of consoles, and what desks keep, are in a folder of this run alone.
RUNTIME = tempfile.TemporaryDirectory(prefix="cueplayer-")
os.environ["XDG_RUNTIME_DIR"] = RUNTIME.name
os.environ["XDG_STATE_HOME"] = os.path.join(RUNTIME.name, "state")
# Tests see what people see; `test_ordered_texts` has what programs see.
os.environ["CUEPLAYER_REMARKS"] = "1"

NO_PATCH = b"no dimmer is patched\n"
UNFIT = b"words refused\n"
DEVICE_FAULT = b"device fault\n"


# The first line that tells of a fault; the line behind it is a remark, in words.
FAULT = re.compile(
    rb"(words refused|show(: | line \d+: )\w+|base: Universe|line \d+ refused|script: "
    rb"TooLong|setup: \w+"
    rb"|device fault|lost \d+)\n"
)

# What `listen` tells before it waits, and `check` of a file that is no text.
WAITING = (b"listening at ", b"the show has no cue, ")

# What `live` tells at its start: to what it sends, and by which card, in one line or more.
START = re.compile(
    rb"show: \d+ cues?, .*\nsends: .*\n(?:(?:target: |from |other cards: |no route to ).*\n)*"
    rb"record: .*\nend ends the night, .*\n"
)


def messages_in(err):
    """Standard error without remarks, and without what `listen` and `live` tell before they
    begin."""
    lines = START.sub(b"", err).splitlines(keepends=True)
    lines = [line for line in lines if not line.startswith(WAITING)]
    if len(lines) > 1 and FAULT.fullmatch(lines[-2]):
        lines.pop()
    return b"".join(lines)


class Outcome(NamedTuple):
    """How a run ended, and what it wrote; of standard error what `told` leaves."""

    status: int
    out: bytes
    err: bytes


def run(*words, stdin=b"", **options):
    """Runs the program with these words. A negative status is the signal that ended it."""
    done = subprocess.run(
        [PROGRAM, *words], input=stdin, capture_output=True, timeout=60, **options
    )
    return Outcome(done.returncode, done.stdout, messages_in(done.stderr))


def live_name(machine):
    """How `live` names its source on the machine of this name where it is given no --name: behind
    the program's name what is printable ASCII of the machine's, 63 bytes at most."""
    seen = re.sub("[^!-~]", "", machine)
    return f"cueplayer {seen}"[:63].strip()


# That of this machine.
LIVE_NAME = live_name(os.uname().nodename)


def text(*lines):
    """A show text: each line, ended by LF. A character stands for the byte of its number."""
    return "".join(line + "\n" for line in lines).encode("latin-1")


def counts(lines, cues=0, subs=0, groups=0, dimmers=0, skipped=0):
    """What `check` prints of a show with these counts."""
    return (
        f"lines {lines} cues {cues} subs {subs} groups {groups} dimmers {dimmers} skipped "
        f"{skipped}\n"
    ).encode()


# Each line of the head of a record begins so.
HEAD = (b"! cueplayer record ", b"! cid ")


def behind_head(record):
    """The lines of a record, behind its head."""
    lines = record.split(b"\n")
    return [line.decode("latin-1") for line in lines if line and not line.startswith(HEAD)]


def slots_in(line):
    """The slots that a slots line shows, by their numbers."""
    return {int(slot): int(level) for slot, level in re.findall(r"(\d+):(\d+)", line)}


def slots_line(slots):
    """The line that shows these slots, those that are not 0."""
    return "slots" + "".join(f" {slot}:{level}" for slot, level in sorted(slots.items()))


def packet(universe, slots, sequence=0, options=0, priority=100, cid=CID, name="cueplayer"):
    """An E1.31 data packet of the program, field by field: `slots` has the slots that are not
    0."""
    levels = bytearray(512)
    for slot, level in slots.items():
        levels[slot - 1] = level
    fields = (
        bytes.fromhex("00100000"),  # preamble and post-amble size
        b"ASC-E1.17\0\0\0",  # packet identifier
        bytes.fromhex("726e 00000004"),  # root layer: flags and length, vector
        bytes.fromhex(cid.replace("-", "")),
        bytes.fromhex("7258 00000002"),  # framing layer: flags and length, vector
        name.encode().ljust(64, b"\0"),  # source name
        bytes([priority, 0, 0, sequence, options]),  # 0, 0: the synchronization address
        universe.to_bytes(2, "big"),
        bytes.fromhex("720b 02 a1 0000 0001 0201"),  # DMP layer, up to the property value count
        b"\0",  # START code
        bytes(levels),
    )
    return b"".join(fields)


class ProgramTest(unittest.TestCase):
    """Assertions on whole runs: the exit status, standard output and standard error, all three
    exact."""

    maxDiff = 2000

    def assertRuns(self, words, stdin, status=0, out=b"", err=b""):
        self.assertEqual(Outcome(status, out, err), run(*words, stdin=stdin))

    def assertChecks(self, show, **expected):
        """`check` accepts the show and prints these counts."""
        self.assertRuns(["check", "-"], show, out=counts(**expected))

    def assertFault(self, show, fault):
        """What reads a show refuses it with this fault; `explain` prints its faulty lines."""
        err = f"show{fault}\n".encode()
        explained = run("explain", "-", stdin=show)
        self.assertEqual((3, err), (explained.status, explained.err))
        alone = ["check", "-"], ["check", "-", "--strict"], ["cues", "-"]
        for job in (*alone, ["look", "-", "1", "--cid", CID], ["slots", "-", "1"]):
            self.assertRuns(job, show, status=3, err=err)

    def assertLooks(self, show, cue, universes):
        """`look` prints one packet a universe, with these slots, and `slots` the slots themselves:
        `universes` is in their order.

        Where there is no universe, both say so on standard error."""
        err = b"" if universes else NO_PATCH
        out = text(*(packet(*universe).hex() for universe in universes.items()))
        self.assertRuns(["look", "-", cue, "--cid", CID], show, out=out, err=err)
        shown = (
            f"universe {universe}\n{slots_line(slots)}" for universe, slots in universes.items()
        )
        self.assertRuns(["slots", "-", cue], show, out=text(*shown), err=err)

    def assertNoCue(self, show, cue):
        """Neither `look` nor `slots` finds the cue."""
        for words in (["look", "-", cue, "--cid", CID], ["slots", "-", cue]):
            self.assertRuns(words, show, status=3, err=b"show: NoCue\n")

    def assertFullDisk(self, words, stdin=b""):
        """A run whose output has no room ends with a device fault."""
        with open("/dev/full", "wb") as full:
            pipe = subprocess.PIPE
            done = subprocess.run(
                [PROGRAM, *words], input=stdin, stdout=full, stderr=pipe, timeout=60
            )
        self.assertEqual((5, DEVICE_FAULT), (done.returncode, messages_in(done.stderr)))


class FolderTest(ProgramTest):
    """With a folder for each test; where the class names a SHOW, it is there as `self.show`."""

    SHOW: bytes | None = None

    def setUp(self):
        folder = tempfile.TemporaryDirectory()
        self.addCleanup(folder.cleanup)
        self.folder = Path(folder.name)
        if self.SHOW is not None:
            self.show = self.file("show.asc", self.SHOW)

    def file(self, name, content):
        """A file of the folder."""
        file = self.folder / name
        file.write_bytes(content)
        return file
