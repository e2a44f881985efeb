"""Reading a file whole, or standard input, and writing one to standard output."""

import sys

from cueplayer_tools.line_protocol import Refused


def read_whole(file: str, most: int) -> bytes:
    """The first bytes of a file, up to so many; of standard input by the name `-`."""
    try:
        if file == "-":
            return sys.stdin.buffer.read(most)
        with open(file, "rb") as opened:
            return opened.read(most)
    except OSError as fault:
        raise Refused(f"{file}: {fault.strerror}") from fault


def write_out(content: bytes) -> None:
    """Writes to standard output; Refused where not all of it could be written."""
    try:
        # By its number, so that nothing is left for the interpreter to write at its end.
        with open(1, "wb", closefd=False) as out:
            out.write(content)
    except OSError as fault:
        raise Refused(f"standard output: {fault.strerror}") from fault
