"""Every cut of a data packet, and every byte of one turned over, as a receiver takes them."""

from listeners import Listener
from program import CID, FolderTest, run, text
from worked import look_one, replies_by_number

LOOK_ONE = look_one()
AT_ONCE = 64  # datagrams that wait at a socket


def turn_byte(offset):
    """The packet with all eight bits of one byte turned over."""
    return LOOK_ONE[:offset] + bytes([LOOK_ONE[offset] ^ 0xFF]) + LOOK_ONE[offset + 1 :]


def slots_text(offset, reply):
    """The slots line of that packet."""
    if reply.startswith("ignored"):
        return "slots"
    if offset == 126:
        return "slots 1:191"
    return "slots 1:64" + (f" {offset - 125}:255" if offset > 126 else "")


class Packets(FolderTest):
    def test_cut_packet(self):
        """A packet cut to each length is Short, then Length, and the whole one is taken. Over a
        socket, a number of datagrams at a time."""
        replies = replies_by_number("cut_packet", "bytes")
        listener = Listener(count=len(replies))
        self.addCleanup(listener.abandon)
        for first in range(0, len(replies), AT_ONCE):
            lengths = range(first, min(first + AT_ONCE, len(replies)))
            listener.send(*(LOOK_ONE[:length] for length in lengths))
            for length in lengths:
                self.assertEqual(text(f"{length + 1} {replies[length]}"), listener.line())
        self.assertEqual((0, b"slots 1:64\n", b""), listener.close())

    def test_turned_bytes(self):
        """A packet with each byte turned has the fault of its field, or is taken as it is. In
        memory, each so late that what came before is forgotten; and then what is shown."""
        replies = replies_by_number("turned_bytes", "offsets")
        lines, out = [f"console 1 100 {CID}", "receiver 1"], []
        for offset in range(len(LOOK_ONE)):
            reply = replies.get(offset, "taken 0")
            lines += [
                f"{2500 * offset} stray 0 {turn_byte(offset).hex()}",
                f"{2500 * offset} slots 0",
            ]
            out += [f"{len(lines) - 1} {reply}", f"{len(lines)} {slots_text(offset, reply)}"]
        script = self.file("night.script", text(*lines))
        self.assertEqual(
            (0, text(*out, "end 0 slots 1:64 512:255"), b""), run("rehearse", "/dev/null", script)
        )
