"""What `cueplayer-night` tells systemd: that packets leave, that ticks go on, and how the night
is."""

import contextlib
import os
import re
import resource
import signal
import socket
import threading
import time
import uuid
from pathlib import Path

from kept_nights import RefusedTest
from tooling import PATIENCE, wait_for

# Between two ticks that are told of at most, in microseconds; it is told four times as often.
PERIOD = 1_000_000
# Stands for the program: it says that it plays, and makes no tick.
STUB = """#!/bin/sh
[ "$1" = live ] || exit 0
case "$*" in *--spare*) exec sleep 60 ;; esac
while [ "$1" != --record ]; do shift; done
echo "! cueplayer record 1: show x" >>"$2"
echo "end ends the night" >&2
exec sleep 60
"""


class Service(RefusedTest):
    def setUp(self):
        super().setUp()
        self.told = []

    def listen(self, name):
        """A socket of this name, of which the keeper is told."""
        manager = socket.socket(socket.AF_UNIX, socket.SOCK_DGRAM)
        self.addCleanup(manager.close)
        manager.bind(name)
        threading.Thread(target=self.take, args=(manager,), daemon=True).start()
        self.manager = manager
        self.environment |= {"NOTIFY_SOCKET": name.replace("\0", "@")}
        self.environment |= {"WATCHDOG_USEC": str(PERIOD)}

    def take(self, manager):
        """Takes what is told as it comes: its socket has room for a few lines."""
        with contextlib.suppress(OSError):
            while True:
                self.told += manager.recv(4096).decode().splitlines()

    def hear(self):
        """All lines that were told up to now."""
        return list(self.told)

    def wait_for_line(self, pattern):
        find = re.compile(pattern).fullmatch
        return wait_for(lambda: any(map(find, self.hear())), pattern)

    def keep(self, name):
        self.listen(name)
        return self.keeper(*self.words)

    def test_night(self):
        """By a socket with a path."""
        keeper = self.keep(str(self.folder / "notify"))
        self.wait_for_line("READY=1")
        self.assertTrue(self.came(0.05), "packets")
        self.wait_for_line(r"STATUS=live \(process \d+\) plays; a spare stands by \(\d+\)")
        self.assertEqual(1, self.hear().count("READY=1"))
        ticks = self.hear().count("WATCHDOG=1")
        wait_for(lambda: self.hear().count("WATCHDOG=1") > ticks + 3, "ticks go on")
        for name in ("pid", "spare"):
            started = Path(f"/proc/{self.number(name)}/environ").read_text()
            self.assertNotIn("NOTIFY_SOCKET", started)
        self.run_script("end")
        self.wait_for_line("STOPPING=1")
        self.assertEqual(0, keeper.process.wait(PATIENCE))

    def test_trouble_in_words(self):
        """By an abstract socket. A record that does not grow is no end of the ticks."""
        self.keep(f"\0cueplayer-{uuid.uuid4()}")
        self.wait_for_line("READY=1")
        size = (self.night / "record").stat().st_size
        resource.prlimit(self.writer(), resource.RLIMIT_FSIZE, (size, resource.RLIM_INFINITY))
        self.wait_for_line(r"STATUS=live .* plays; .*; its record does not grow")
        ticks = self.hear().count("WATCHDOG=1")
        wait_for(lambda: self.hear().count("WATCHDOG=1") > ticks + 3, "ticks go on")

    def test_no_tick(self):
        """Then it is neither ready nor well."""
        stub = self.file("stub", STUB.encode())
        stub.chmod(0o755)
        self.environment["CUEPLAYER"] = str(stub)
        self.keep(str(self.folder / "notify"))
        self.wait_for_reply("^end ends the night")
        until = time.monotonic() + 2
        wait_for(lambda: time.monotonic() > until, "the time passes")
        self.assertEqual({"STATUS"}, {line.partition("=")[0] for line in self.hear()})

    def test_watched_as_another_process(self):
        """Who is not the one that is watched tells of no tick; nobody may listen."""
        self.listen(str(self.folder / "notify"))
        self.environment["WATCHDOG_PID"] = "1"
        self.keeper(*self.words)
        self.wait_for_line("READY=1")
        self.manager.close()
        (self.folder / "notify").unlink()
        self.go(1)
        self.assertNotIn("WATCHDOG=1", self.told)
        os.kill(self.number("lock"), signal.SIGTERM)
