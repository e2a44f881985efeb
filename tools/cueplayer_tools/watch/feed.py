"""The run of `cueplayer watch` behind `tools/watch`: lines go in, and what it says comes out."""

import os
import subprocess

from cueplayer_tools.program import program

# Bytes of lines that wait for the program: more datagrams wait in the socket.
MOST_WAITING = 1 << 18
CHUNK = 1 << 16


class Feed:
    """The program, which never makes its caller wait."""

    def __init__(self, universes: list[int]) -> None:
        """OSError where the program cannot be started."""
        self.child = subprocess.Popen(
            [program(), "watch", *map(str, universes)],
            stdin=subprocess.PIPE,
            stdout=subprocess.PIPE,
            # Control-C at a terminal is for its caller alone, which ends the input then.
            start_new_session=True,
        )
        assert self.child.stdin and self.child.stdout
        self.input, self.output = self.child.stdin.fileno(), self.child.stdout.fileno()
        os.set_blocking(self.input, False)
        os.set_blocking(self.output, False)
        self.waiting = bytearray()
        self.part = b""

    def is_full(self) -> bool:
        """Whether so much waits that nothing more is to be given."""
        return len(self.waiting) >= MOST_WAITING

    def give(self, lines: bytes) -> None:
        """Has lines wait for the program."""
        self.waiting += lines

    def push(self) -> None:
        """Writes what the program takes now."""
        try:
            written = os.write(self.input, self.waiting[:CHUNK])
        except BlockingIOError:
            return
        del self.waiting[:written]

    def new_lines(self) -> list[str] | None:
        """The lines that the program has printed since the last look; None at their end."""
        try:
            came = os.read(self.output, CHUNK)
        except BlockingIOError:
            return []
        if not came:
            return None
        *lines, self.part = (self.part + came).split(b"\n")
        return [line.decode("latin-1") for line in lines]

    def end(self) -> list[str]:
        """Ends the program's input behind what waits; the last lines that it prints."""
        came, _ = self.child.communicate(bytes(self.waiting))
        return (self.part + came).decode("latin-1").splitlines()

    def stop(self) -> None:
        """Ends the program, whatever it has left to say."""
        self.child.kill()
        self.child.wait()
