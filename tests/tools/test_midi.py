"""`tools/desk --midi`: notes and MIDI Show Control from a device, for which a FIFO stands."""

import os
import random
import signal
import time
import unittest
from unittest import mock

from desks import DeskTest
from tooling import run_tool, stand_still, wait_for

from cueplayer_tools.line_protocol import Refused, command_line
from cueplayer_tools.midi import port as midi_port
from cueplayer_tools.midi.bytes import Exclusive, MidiReader, Note
from cueplayer_tools.midi.show import Wanted, line_of


def show(*data, device=0, kind=1):
    """A message of show control as bytes: its command and what stands behind it."""
    parts = [part if isinstance(part, bytes) else bytes([part]) for part in data]
    return bytes([0xF0, 0x7F, device, 0x02, kind]) + b"".join(parts) + b"\xf7"


GO, STOP, RESUME, TIMED_GO = 1, 2, 3, 4
# 1 h 2 min 3 s, 12 frames and 50 hundredths of one, at 25 frames a second: 3723.5 s.
TIME = bytes([0x20 | 1, 2, 3, 12, 50])
SHORT = bytes([0x60, 0, 2, 15, 0])
ASKED = (
    (show(GO), "go"),
    (show(GO, b"2.5"), "goto 2.5"),
    (show(GO, b"2.50\0" + b"1"), "goto 2.5"),
    (show(GO, b"7\0\0"), "goto 7"),
    (show(GO, b"7\0" + b"1\0" + b"3"), "goto 7"),
    (show(GO, device=0x7F), "go"),
    (show(GO, kind=0x7F), "go"),
    (show(TIMED_GO, SHORT, b"2"), "goto 2 in 2.5"),
    (show(TIMED_GO, TIME, b"2\0" + b"1"), "goto 2 in 3723.5"),
    # With status instead of parts of a frame.
    (show(TIMED_GO, bytes([0x60, 0, 2, 0x20 | 15, 99]), b"2"), "goto 2 in 2.5"),
)
REFUSED = (
    (show(STOP), "show control: STOP has no meaning here"),
    (show(RESUME, b"1"), "show control: RESUME has no meaning here"),
    (show(8), "show control: ALL_OFF has no meaning here"),
    (show(0x1F), "show control: no command 1F"),
    (show(GO, b"1\0" + b"2"), "show control: GO: no such cue list: there is only list 1"),
    (show(GO, b"x"), "show control: GO: not a cue number"),
    (show(GO, b"1.2.3"), "show control: GO: not a cue number: 1.2.3"),
    (show(TIMED_GO, SHORT), "show control: TIMED_GO: a time needs a cue too"),
    (show(TIMED_GO, SHORT[:4]), "show control: TIMED_GO: a time is cut off"),
    (
        show(TIMED_GO, bytes([0x60 | 5, 0, 0, 0, 0]), b"1"),
        "show control: TIMED_GO: not a time: 18000.00",
    ),
)
NOTHING = (
    show(GO, device=1),
    show(GO, kind=0x10),
    show(GO)[:-2] + b"\xf7",
    b"\xf0\x7e\x00\x06\x01\xf7",
    b"\xf0\xf7",
    b"\xf0\x7f\x00\x02\x01" + b"\x01" * 200 + b"\xf7",
    show(GO)[1:],
    show(GO)[:-1] + b"\x90\x00\x00\xf7",
)


def lines(data, wanted=Wanted()):
    """The lines that these bytes ask for."""
    found = (line_of(message, wanted) for message in MidiReader().read(data))
    return [line for line in found if line is not None]


class Bytes(unittest.TestCase):
    def test_notes(self):
        """A note with a strength is pressed; its status goes on for the next, and clocks may stand
        within."""
        for data, expected in (
            (b"\x90\x3c\x40", [Note(1, 60)]),
            (b"\x9f\x3c\x01\x3d\x7f", [Note(16, 60), Note(16, 61)]),
            (b"\x90\x3c\x00\x80\x3c\x40", []),
            (b"\x90\xf8\x3c\xfe\x40", [Note(1, 60)]),
            (b"\x3c\x40", []),
            (b"\xc0\x3c\x90\x3c\x40", [Note(1, 60)]),
            (b"\xf2\x3c\x40\x3c\x40", []),
            (b"\xf6\x3c\x40", []),
            (b"\x90\x3c\xb0\x07\x7f\x3c\x40", []),
            (b"\xf0\x01\xf8\x02\xf7\x3c\x40", [Exclusive(b"\1\2")]),
            (b"\xf0\x01\x90\x3c\x40", [Note(1, 60)]),
        ):
            with self.subTest(data):
                self.assertEqual(expected, MidiReader().read(data))
                reader = MidiReader()
                pieces = [found for each in data for found in reader.read(bytes([each]))]
                self.assertEqual(expected, pieces)

    def test_by_chance(self):
        """5,000 damaged MIDI messages: whatever comes is a command, or it is refused, or nothing;
        the next press is taken."""
        chance, reader = random.Random(7), MidiReader()
        whole = [data for data, _ in (*ASKED, *REFUSED)]
        for _ in range(5_000):
            data = bytearray(chance.choice(whole))
            for _ in range(chance.randint(0, 4)):
                data[chance.randrange(len(data))] = chance.randrange(256)
            for message in reader.read(bytes(data)):
                try:
                    line = line_of(message, Wanted(0, 60, 59))
                except Refused:
                    continue
                if line is not None:
                    self.assertEqual(command_line(line), line)
            self.assertLessEqual(len(reader.exclusive or b""), 129)
        self.assertEqual(["go"], lines(show(GO)))

    def test_show_control(self):
        for data, line in ASKED:
            with self.subTest(data):
                self.assertEqual([line], lines(data))
                self.assertEqual(line, command_line(line))
        for data, told in REFUSED:
            with self.subTest(data), self.assertRaises(Refused) as refused:
                lines(data)
            self.assertEqual(told, str(refused.exception))
        for data in NOTHING:
            with self.subTest(data):
                self.assertEqual([], lines(data))

    def test_buttons(self):
        """Notes are buttons where that was asked for."""
        data = b"\x90\x3c\x40\x3b\x40\x3a\x40"
        self.assertEqual([], lines(data))
        self.assertEqual(["go", "back"], lines(data, Wanted(0, 60, 59)))


class Device(DeskTest):
    def device(self):
        """A FIFO, and what writes into it."""
        path = self.folder / "midi"
        os.mkfifo(path)
        writer = os.open(path, os.O_RDWR)
        self.addCleanup(os.close, writer)
        return path, writer

    def test_played(self):
        """It plays the night beside the page, which tells what is refused."""
        path, device = self.device()
        _, page = self.open_desk(
            "--midi", path, "--midi-go", 60, "--midi-back", 59, "--midi-device", 7
        )
        os.write(device, b"\x90\x3c\x40")
        page.wait(current="1")
        os.write(device, show(GO, b"2", device=7))
        page.wait(current="2")
        os.write(device, b"\x90\x3b\x40")
        page.wait(current="1.5")
        os.write(device, show(GO, device=0) + show(TIMED_GO, SHORT, b"1", device=7))
        self.assertEqual(2500, page.wait(current="1")["fade"]["whole"])
        os.write(device, show(STOP, device=7) * 50)
        told = "MIDI: show control: STOP has no meaning here"
        wait_for(lambda: page.notices() == [told], told)
        os.write(device, show(GO, b"9", device=7))
        wait_for(lambda: "goto 9: refused, NoCue" in page.notices(), "the refusal")

    def test_double_go(self):
        """A second GO so soon after the first is refused here too."""
        path, device = self.device()
        _, page = self.open_desk("--midi", path, "--double-go", 10_000)
        os.write(device, show(GO) + show(GO))
        page.wait(current="1", waiting=0)
        told = "MIDI: go: a second GO 0 ms after the first: nothing was sent"
        wait_for(lambda: any("a second GO" in each for each in page.notices()), told)
        page.command("sub 1 FL")
        self.assertEqual("1", page.wait(masters={"sub 1": 255})["current"])

    def test_late(self):
        """What waited while the desk stood still is passed over, and told."""
        path, device = self.device()
        desk, page = self.open_desk("--midi", path)
        stand_still(desk.process.pid)
        os.write(device, show(GO))
        time.sleep(1.5)
        os.kill(desk.process.pid, signal.SIGCONT)
        wait_for(lambda: any("not read within a second" in told for told in page.notices()), "that")
        page.command("sub 1 FL")
        self.assertIsNone(page.wait(masters={"sub 1": 255})["current"])
        os.write(device, show(GO))
        page.wait(current="1")

    def test_pulled_out(self):
        """A device that has gone stays told, and that it is back is good news."""
        reader, writer = os.pipe()
        told = []
        with mock.patch.object(midi_port, "open_port", side_effect=[reader, os.dup(reader)]):
            port = midi_port.MidiPort("/dev/midi", Wanted(), lambda *each: told.append(each))
            os.close(writer)
            port.take(self.fail)
            port._open_again()
        os.close(port.device)
        gone, back = "MIDI: /dev/midi has gone: plug it in again", "MIDI: /dev/midi is back"
        self.assertEqual([(gone, "fault"), (back, "good")], told)

    def test_words(self):
        """What is no device, or no note, is told before the night."""
        usual = (self.show, "--to", self.to, "--cid", self.cid)
        for status, told, words in (
            (1, "--midi /nowhere: No such file or directory", ("--midi", "/nowhere")),
            (1, "neither a device nor a FIFO", ("--midi", self.show)),
            (2, "not a number from 0 to 127: '128'", ("--midi", "x", "--midi-go", "128")),
            (2, "not a number from 0 to 111: 'x'", ("--midi", "x", "--midi-device", "x")),
            (2, "--midi-go and --midi-back need --midi", ("--midi-back", "1")),
        ):
            with self.subTest(words):
                done = run_tool("desk", *usual, *words)
                self.assertEqual(status, done.returncode)
                self.assertIn(told, done.stderr)
