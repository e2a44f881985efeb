"""`tools/osc`: turns Open Sound Control into lines for `live`, or plays a night's folder."""

import fcntl
import os
import select
import stat
import sys
import termios
import time

from cueplayer_tools.addresses import bound_socket, listening_address
from cueplayer_tools.line_protocol import Refused
from cueplayer_tools.night_folder import NightFolder
from cueplayer_tools.osc.port import LATE, OscPort
from cueplayer_tools.teller import Teller, leave_all
from cueplayer_tools.tool_parser import ToolParser

ABOUT = "Turns Open Sound Control into lines for `live`, or plays a night that is kept."
EXAMPLES = (
    "tools/osc --listen 192.168.1.5:8000 --night tonight",
    "tools/osc --listen 192.168.1.5:8000 | ./cueplayer live ..",
)

USUAL = "127.0.0.1:8000"


class Output:
    """Standard output, which takes a line at once or not at all: behind a reader that stands
    still a press would wait, and be carried out when nobody expects it."""

    def __init__(self, file: int) -> None:
        self.file = file
        self.is_pipe = stat.S_ISFIFO(os.fstat(file).st_mode)
        self.written = 0
        self.read = 0
        self.read_at = 0.0
        self.room = select.poll()
        self.room.register(file, select.POLLOUT)

    def give(self, line: str) -> None:
        """Writes a line, or refuses it."""
        # What a poll calls writable takes a line whole.
        if self._stands_still() or not self.room.poll(0):
            raise Refused("the reader of the lines stands still: nothing was sent; press again")
        self.written += os.write(self.file, line.encode() + b"\n")

    def _stands_still(self) -> bool:
        """Whether lines lie in the pipe, and none of them was read for a second."""
        unread = self._unread()
        read, now = self.written - unread, time.monotonic()
        if not unread or read != self.read:
            self.read, self.read_at = read, now
        return now - self.read_at > LATE

    def _unread(self) -> int:
        if not self.is_pipe:
            return 0
        return int.from_bytes(fcntl.ioctl(self.file, termios.FIONREAD, bytes(4)), sys.byteorder)


def serve(port: OscPort, output: Output | NightFolder) -> None:
    """Hands on the lines of each datagram that comes, until nobody reads them any more. The FIFO
    of a night may be read again."""
    poll = select.poll()
    poll.register(port, select.POLLIN)
    reader = output.file if isinstance(output, Output) else None
    if reader is not None:
        # Asked for nothing, a pipe still tells that its reader has gone.
        poll.register(reader, 0)
    while True:
        patience = port.patience()
        ready = dict(poll.poll(None if patience is None else 1 + int(patience * 1000)))
        if reader in ready:
            return
        port.take(output.give)


def main(words: list[str]) -> int:
    """Runs the tool with these words, and answers its exit status."""
    parser = ToolParser("osc", ABOUT, EXAMPLES)
    parser.add_argument(
        "--listen",
        metavar="ADDR:PORT",
        type=listening_address,
        default=USUAL,
        help=f"where to listen; a port alone listens to this machine alone ({USUAL})",
    )
    parser.add_argument(
        "--night",
        metavar="NIGHT",
        help="hand lines to the night that `cueplayer-night NIGHT` keeps going, and print none",
    )
    chosen = parser.parse_args(words)
    address = chosen.listen
    tell = Teller(sys.stderr, "osc: ")
    night = None if chosen.night is None else NightFolder(chosen.night)
    if night is not None and not night.is_played():
        tell(night.refusal())
        return leave_all(1, tell)
    try:
        receiver = bound_socket(address)
    except OSError as fault:
        tell(f"cannot listen at {address[0]}:{address[1]}: {fault.strerror}")
        return leave_all(1, tell)
    tell("listening at {}:{}".format(*receiver.getsockname()))
    with receiver:
        try:
            serve(OscPort(receiver, tell), night or Output(sys.stdout.fileno()))
        except (BrokenPipeError, KeyboardInterrupt):
            pass
    return leave_all(0, tell)
