"""What the tests of `listen` share: one that runs, and what it is sent."""

import select
import socket
import subprocess
import time
from pathlib import Path

from program import PROGRAM, messages_in
from wire import free_port
from worked import listen_example

DATAGRAMS, THREE = listen_example("listen_three")


def is_bound(host, port):
    """Whether a socket is bound there, as the system tells without one of our own."""
    address = socket.inet_aton(host)[::-1].hex().upper()
    return f" {address}:{port:04X} " in Path("/proc/net/udp").read_text()


class Listener:
    """A run of `listen` that has its socket."""

    def __init__(self, universe=1, count=1, host="127.0.0.1", port=None, address=None, env=None):
        self.at = (host, port or free_port())
        words = [PROGRAM, "listen", address or f"{host}:{self.at[1]}", str(universe), str(count)]
        # Without a buffer, what `line` leaves is there for `close`.
        self.child = subprocess.Popen(
            words, stdout=subprocess.PIPE, stderr=subprocess.PIPE, bufsize=0, env=env
        )
        self.sender = socket.socket(socket.AF_INET, socket.SOCK_DGRAM)
        until = time.monotonic() + 30
        while self.child.poll() is None and not is_bound(*self.at):
            if time.monotonic() > until:
                self.child.kill()
                raise TimeoutError("no socket is bound")
            time.sleep(0.002)

    def send(self, *datagrams):
        for datagram in datagrams:
            self.sender.sendto(datagram, self.at)

    def line(self):
        """The next line, where it comes within some seconds."""
        ready, _, _ = select.select([self.child.stdout], [], [], 30)
        return self.child.stdout.readline() if ready else b"(no line)"

    def is_silent(self):
        """Nothing more is printed for now."""
        return not select.select([self.child.stdout], [], [], 0.05)[0]

    def close(self):
        """Waits for the run's end: its status, the rest of its output, and what it told."""
        self.sender.close()
        out, err = self.child.communicate(timeout=30)
        err = messages_in(err)
        return self.child.returncode, out, err

    def abandon(self):
        """Ends the run and what it holds, whatever state it is in."""
        self.sender.close()
        if self.child.poll() is None:
            self.child.kill()
        self.child.communicate()
