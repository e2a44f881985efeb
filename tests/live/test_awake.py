"""`./cueplayer live` asks the system not to sleep while the night is played. A stand-in for
`systemd-inhibit` writes down what is asked: no machine is put to sleep here."""

import os
import signal
import subprocess
import unittest
from pathlib import Path

from live_outputs import OutputsTest
from program import PROGRAM, TOP
from tooling import wait_for

ALL, IDLE = "sleep:idle:handle-lid-switch", "idle"
REQUEST = "--what={} --who=cueplayer --why=a live night tail --pid={} -f /dev/null"

# Refuses what REFUSED names, else runs what follows the options, as systemd-inhibit does.
STAND_IN = """#!/bin/sh
request=$*
case " $REFUSED " in
    *" ${1#--what=} "*) echo "$request" >>"$ASKED"; echo "Failed to inhibit" >&2; exit 1 ;;
esac
shift 3
"$@" &
echo "$!" >"$ASKED.holder"
echo "$request" >>"$ASKED"
wait
echo "let go" >>"$ASKED"
"""


class Awake(OutputsTest):
    PROGRAM = TOP / "cueplayer"

    def setUp(self) -> None:
        super().setUp()
        programs = self.folder / "bin"
        programs.mkdir()
        (programs / "systemd-inhibit").write_text(STAND_IN)
        (programs / "systemd-inhibit").chmod(0o755)
        self.log = self.folder / "asked"
        self.env = os.environ | {
            "CUEPLAYER": str(PROGRAM),
            "PATH": f"{programs}:{os.environ['PATH']}",
            "DBUS_SYSTEM_BUS_ADDRESS": "unix:path=/nowhere",
            "ASKED": str(self.log),
        }

    def requests(self) -> list[str]:
        return self.log.read_text().splitlines() if self.log.exists() else []

    def awaits(self, *lines: str) -> None:
        """These lines come, and no others."""
        wait_for(lambda: len(self.requests()) >= len(lines), lines)
        self.assertEqual(list(lines), self.requests())

    def files(self) -> set[str]:
        """The files of the process that keeps the machine awake, once it does so."""
        number = Path(f"{self.log}.holder").read_text().strip()
        if Path("/proc", number, "comm").read_text() != "tail\n":
            return {"not yet"}
        try:
            return {os.readlink(each) for each in Path("/proc", number, "fd").iterdir()}
        except FileNotFoundError:
            return {"one that was closed meanwhile"}

    def test_while_the_night_is_played(self) -> None:
        """It is asked once, also where CUEPLAYER names the script itself, and let go behind it. The
        process that does so has none of the night's files."""
        for program in (PROGRAM, self.PROGRAM):
            with self.subTest(program=program.name):
                self.log.unlink(missing_ok=True)
                self.env["CUEPLAYER"] = str(program)
                night = self.begin_night("--record", self.folder / f"{program.parent.name}.play")
                self.light(night, b"sub 1 FL\n", 128)
                request = REQUEST.format(ALL, night.pid)
                self.awaits(request)
                wait_for(lambda: self.files() <= {"/dev/null", "anon_inode:inotify"}, "few files")
                self.assertEnds(night)
                self.awaits(request, "let go")
                self.assertEqual(b"", night.stderr.read())

    def test_killed(self) -> None:
        night = self.begin_night()
        self.light(night, b"sub 1 FL\n", 128)
        request = REQUEST.format(ALL, night.pid)
        self.awaits(request)
        night.send_signal(signal.SIGKILL)
        night.wait()
        self.awaits(request, "let go")

    def test_refused(self) -> None:
        """Who may not ask for all asks for less. Nothing is told, and the night goes on."""
        rows: list[tuple[list[str], list[str]]] = [([ALL], ["let go"]), ([ALL, IDLE], [])]
        for refused, last in rows:
            with self.subTest(refused=refused):
                self.log.unlink(missing_ok=True)
                self.env["REFUSED"] = " ".join(refused)
                night = self.begin_night()
                self.light(night, b"sub 1 FL\n", 128)
                requests = [REQUEST.format(each, night.pid) for each in (ALL, IDLE)]
                self.awaits(*requests)
                self.light(night, b"sub 1 0\n", 0)
                self.assertEnds(night)
                self.awaits(*requests, *last)
                self.assertEqual(b"", night.stderr.read())

    def test_other_runs(self) -> None:
        """A run that plays nothing live does not ask."""
        words = [str(self.PROGRAM), "check", str(TOP / "examples/small-play.asc")]
        subprocess.run(words, env=self.env, check=True, stdout=subprocess.DEVNULL)
        self.assertEqual([], self.requests())

    @unittest.skipIf(Path("/run/dbus/system_bus_socket").exists(), "this machine has a system bus")
    def test_no_bus(self) -> None:
        """There is nobody to ask."""
        del self.env["DBUS_SYSTEM_BUS_ADDRESS"]
        night = self.begin_night()
        self.light(night, b"sub 1 FL\n", 128)
        self.assertEnds(night)
        self.assertEqual([], self.requests())
