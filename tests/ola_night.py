#!/usr/bin/env python3
"""A night that is killed and taken up, as the daemon of Open Lighting (OLA) shows it.

usage: tests/ola_night.py [--kills N] [--seed S] [--spare]

It is run as root in a network of its own, as test_ola.py does; `olad` has to be on the PATH. What
the daemon shows must be what the record means, look after look, and never dark as long as a cue is
on. With --spare a spare goes on at each kill. It prints what was seen; the exit status is 1 where
something was wrong.
"""

import argparse
import json
import os
import random
import re
import subprocess
import sys
import tempfile
import threading
import time
import urllib.request
from pathlib import Path

sys.dont_write_bytecode = True
sys.path.insert(0, str(Path(__file__).resolve().parent / "harness"))

from program import text  # noqa: E402  (the harness is on the path now)
from restarts import KilledNight, Wrong, sent_by  # noqa: E402

HERE = "10.77.0.1"
LINK = (
    "ip link set lo up && ip link add stage type veth peer name hall && ip link set hall up && "
    f"ip addr add {HERE}/24 dev stage && ip link set stage up && "
    "ip route add 239.0.0.0/8 dev stage"
)
# What else the daemon would begin with.
OTHERS = (
    "artnet dummy espnet ftdidmx gpio karate kinet milinst nanoleaf opendmx openpixelcontrol osc"
    " pathport renard sandnet shownet spi stageprofi uartdmx usbdmx usbserial"
).split()
# What it does not run as.
NOBODY = 65534
PORT = 9090
CUES = ("CUE 1", "CHAN 1@20 2@FL", "CUE 2", "UP 8", "CHAN 1@FL 2@20")
SHOW = text(*CUES, "PATCH 1 1<1@FL 2<512@FL")
SLOTS = slice(126, 126 + 512)
PATIENCE = 60


class Daemon:
    """The daemon with a port of E1.31, patched to its universe 1, and each look that it showed."""

    def __init__(self, folder: Path) -> None:
        for name in OTHERS:
            Path(folder, f"ola-{name}.conf").write_text("enabled = false\n")
        settings = f"enabled = true\ninput_ports = 1\noutput_ports = 0\nip = {HERE}\n"
        Path(folder, "ola-e131.conf").write_text(settings)
        for each in (folder, *folder.iterdir()):
            os.chown(each, NOBODY, NOBODY)
        user = ["setpriv", f"--reuid={NOBODY}", f"--regid={NOBODY}", "--clear-groups"]
        words = ["olad", "--config-dir", str(folder), "--http-port", str(PORT)]
        words = [*user, *words, "--no-register-with-dns-sd"]
        none = subprocess.DEVNULL
        self.process = subprocess.Popen(words, stdout=none, stderr=none)
        self.looks: list[tuple[float, bytes]] = []
        self.is_over = False
        self._patch()
        self.watch = threading.Thread(target=self._watch, daemon=True)
        self.watch.start()

    def _patch(self) -> None:
        until = time.monotonic() + PATIENCE
        while time.monotonic() < until:
            shown = subprocess.run(["ola_dev_info"], capture_output=True, text=True).stdout
            if device := re.search(r"(?m)^Device (\d+): E1\.31", shown):
                words = ["ola_patch", "-d", device[1], "-p", "0", "-u", "1", "-i"]
                subprocess.run(words, check=True)
                return
            time.sleep(0.1)
        raise Wrong("olad does not start")

    def look(self) -> bytes:
        """The levels of its universe 1."""
        page = f"http://127.0.0.1:{PORT}/get_dmx?u=1"
        with urllib.request.urlopen(page, timeout=PATIENCE) as answer:
            return bytes(json.load(answer)["dmx"])

    def _watch(self) -> None:
        while not self.is_over:
            look = self.look()
            if not self.looks or self.looks[-1][1] != look:
                self.looks.append((time.time(), look))
            time.sleep(0.002)

    def close(self) -> None:
        self.is_over = True
        self.watch.join()
        self.process.terminate()
        self.process.wait(PATIENCE)


def play(
    night: KilledNight, kills: int, chance: random.Random, has_spare: bool
) -> tuple[float, float]:
    """Plays the night; answers from when to when something moved."""
    night.begin()
    time.sleep(0.3)
    night.type(b"go\n")
    time.sleep(0.3)
    night.type(b"go\n")
    first = time.time()
    for _ in range(kills):
        if has_spare:
            night.stand_by()
        time.sleep(chance.uniform(0.1, 0.6))
        night.kill()
        if has_spare:
            night.promote()
        else:
            night.begin()
    time.sleep(0.3)
    last = time.time()
    if night.end():
        raise Wrong("the night did not end well")
    return first, last


def judge(night: KilledNight, looks: list, first: float, last: float) -> float:
    """The longest time in milliseconds for which a look stood still while something moved."""
    meant = [each.packet[SLOTS] for each in sent_by(SHOW, night.record.read_bytes())]
    place = 0
    for at, look in looks:
        if look and look not in meant[place:]:
            raise Wrong(f"at {at - first:.3f} s it shows what is not meant: {look[0]} {look[511]}")
        place = meant.index(look, place) if look else place
        if first < at < last and not any(look):
            raise Wrong(f"at {at - first:.3f} s it is dark")
    moving = [at for at, _ in looks if first < at < last]
    return 1000 * max(b - a for a, b in zip(moving, moving[1:]))


def main() -> int:
    parser = argparse.ArgumentParser(description="A night that is killed, as OLA shows it")
    parser.add_argument("--kills", type=int, default=5)
    parser.add_argument("--seed", type=int, default=41)
    parser.add_argument("--spare", action="store_true")
    asked = parser.parse_args()
    subprocess.run(LINK, shell=True, check=True)
    with tempfile.TemporaryDirectory() as name, tempfile.TemporaryDirectory() as settings:
        night = KilledNight(Path(name), SHOW, to="239.255.0.0")
        daemon = Daemon(Path(settings))
        try:
            times = play(night, asked.kills, random.Random(asked.seed), asked.spare)
            time.sleep(0.3)
        finally:
            daemon.close()
            night.close()
        still = judge(night, daemon.looks, *times)
    looks = f"{len(daemon.looks)} looks of OLA, none for longer than {still:.0f} ms in a move"
    print(f"{asked.kills} kills, {looks}")
    return 0


if __name__ == "__main__":
    try:
        sys.exit(main())
    except Wrong as wrong:
        print(wrong)
        sys.exit(1)
