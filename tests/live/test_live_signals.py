"""`./cueplayer live`: control-C, control-Z and a closed window leave the light on."""

import os
import signal
import time

from live_nights import LiveTest, without_moments
from program import PROGRAM, TOP
from wire import SLOT_1, terminal

CONTROL_C = b"\x03"


def take_terminal():
    """Makes standard input the terminal of a session of its own."""
    os.setsid()
    os.close(os.open(os.ttyname(0), os.O_RDWR))


class Signals(LiveTest):
    """Control-C, control-Z and a window that is closed leave the light on; SIGTERM ends it."""

    PROGRAM = TOP / "cueplayer"

    def setUp(self):
        super().setUp()
        self.env = os.environ | {"CUEPLAYER": str(PROGRAM)}

    def night(self, **options):
        return self.begin_night(holds=True, **options)

    def lit(self):
        """The level of slot 1 in the packets of a second that begins now."""
        self.came()
        time.sleep(1)
        return {each[SLOT_1] for each in self.came()}

    def test_signals_of_a_terminal(self):
        """The light stays, the next command is taken, and an `end` ends the night."""
        night = self.night()
        self.type_line(night, b"sub 1 FL\n")
        for each in (
            signal.SIGINT,
            signal.SIGQUIT,
            signal.SIGTSTP,
            signal.SIGTTIN,
            signal.SIGTTOU,
            signal.SIGHUP,
        ):
            night.send_signal(each)
        self.assertEqual({128}, self.lit())
        self.type_line(night, b"sub 1 50\n")
        self.type_line(night, b"end\n")
        self.assertEqual((0, b""), (night.wait(timeout=30), night.stderr.read()))
        self.assertTerminated(self.came())

    def test_termination(self):
        night = self.night()
        self.type_line(night, b"sub 1 FL\n")
        night.send_signal(signal.SIGTERM)
        self.assertEqual(-signal.SIGTERM, night.wait(timeout=30))

    def test_control_c_at_a_terminal(self):
        """Control-C drops what was typed and leaves the light on."""
        ours, its = terminal(self)
        self.addCleanup(os.close, ours)
        night = self.night(stdin=its, preexec_fn=take_terminal)
        os.close(its)
        os.write(ours, b"sub 1 FL\n")
        self.assertEqual(["ok"], without_moments(night.stdout.readline()))
        os.write(ours, b"sub 1 0" + CONTROL_C)
        self.assertEqual({128}, self.lit())
        os.write(ours, b"end\n")
        self.assertEqual(0, night.wait(timeout=30))

    def test_closed_window(self):
        """The terminal goes away, and the light does not."""
        ours, its = terminal(self)
        night = self.night(stdin=its, preexec_fn=take_terminal)
        os.close(its)
        os.write(ours, b"sub 1 FL\n")
        self.assertEqual(["ok"], without_moments(night.stdout.readline()))
        os.close(ours)
        self.assertEqual({128}, self.lit())
        self.assertIsNone(night.poll())
