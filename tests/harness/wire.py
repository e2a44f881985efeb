"""Datagrams on this machine: sockets that receive them, and where a packet has its fields."""

import contextlib
import os
import pty
import random
import re
import select
import shutil
import socket
import subprocess
from pathlib import Path

from program import FolderTest

SEQUENCE, OPTIONS, SLOT_1 = 111, 112, 126
TERMINATED = 0x40


def receiver_socket(host="127.0.0.1"):
    """A socket with room for what a test sends."""
    receiver = socket.socket(socket.AF_INET, socket.SOCK_DGRAM)
    receiver.setsockopt(socket.SOL_SOCKET, socket.SO_RCVBUF, 1 << 22)
    receiver.bind((host, 0))
    return receiver


def free_port():
    """A port of 127.0.0.1 that nothing is bound on, for a program that binds it later: none of
    those that the system gives to whoever asks for any."""
    least = int(Path("/proc/sys/net/ipv4/ip_local_port_range").read_text().split()[0])
    while True:
        port = random.randrange(least // 2, least)
        with socket.socket(socket.AF_INET, socket.SOCK_DGRAM) as probe:
            with contextlib.suppress(OSError):
                probe.bind(("127.0.0.1", port))
                return port


def address_of(receiver):
    """Its address and port, as a word of the program."""
    return "{}:{}".format(*receiver.getsockname())


def datagrams_at(receiver, wait=0.1):
    """The datagrams that have come to a socket, until none comes for so many seconds."""
    datagrams = []
    while select.select([receiver], [], [], wait)[0]:
        datagrams.append(receiver.recv(65536))
    return datagrams


def socket_flags(process):
    """The flags of each socket that a process has."""
    descriptors = Path(f"/proc/{process}/fd")
    sockets = [each for each in descriptors.iterdir() if os.readlink(each).startswith("socket:")]
    told = [Path(f"/proc/{process}/fdinfo", each.name).read_text() for each in sockets]
    return [int(re.search(r"(?m)^flags:\s+([0-7]+)$", each)[1], 8) for each in told]


def terminal(test):
    """The two ends of a terminal; where the system has none the test is skipped."""
    try:
        return pty.openpty()
    except OSError as fault:
        test.skipTest(f"no terminal can be made: {fault}")


def own_network(test, *tools):
    """The words that run others in a network of their own; where there cannot be one the test is
    skipped."""
    if not all(map(shutil.which, ("unshare", "ip", *tools))):
        test.skipTest("no tools to make a network namespace")
    words = (
        ["unshare", "--net"]
        if os.geteuid() == 0
        else ["unshare", "--user", "--map-root-user", "--net"]
    )
    if (
        subprocess.run([*words, "ip", "link", "set", "lo", "up"], capture_output=True).returncode
        != 0
    ):
        test.skipTest("no network namespace can be made")
    return words


class ReceiverTest(FolderTest):
    """With a socket that receives what a test plays to `self.to`."""

    def setUp(self):
        super().setUp()
        self.receiver = receiver_socket()
        self.addCleanup(self.receiver.close)
        self.to = address_of(self.receiver)

    def came(self, wait=0.1):
        """The datagrams that have come since the last look."""
        return datagrams_at(self.receiver, wait)
