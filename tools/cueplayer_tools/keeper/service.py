"""What the keeper of a night tells the manager of services that has started it, as sd_notify(3) has
it: that the night plays, that it goes on playing, and how it is, in words."""

import os
import socket
import time

# What no child of the keeper is to tell or heed.
_VARIABLES = ("NOTIFY_SOCKET", "WATCHDOG_USEC", "WATCHDOG_PID")
# How often at most it is told that ticks come, in seconds.
_EVERY = 1.0


class Service:
    """Tells it, where somebody has asked."""

    def __init__(self) -> None:
        place, period, number = (os.environ.pop(name, "") for name in _VARIABLES)
        # A name that begins so is none of a file.
        self.place = "\0" + place[1:] if place.startswith("@") else place
        is_watched = period.isdigit() and int(period) > 0 and number in ("", str(os.getpid()))
        self.every = min(int(period) / 4e6, _EVERY) if is_watched else None
        self.fed = 0.0
        self.is_ready = False
        self.words = ""

    def _send(self, *lines: str) -> bool:
        """Sends it, where there is room for it at once: no night waits for who started it; whether
        it was sent, or nobody has asked."""
        if not self.place:
            return True
        content = os.fsencode("\n".join(lines))
        try:
            with socket.socket(socket.AF_UNIX, socket.SOCK_DGRAM) as file:
                file.setblocking(False)
                file.sendto(content, self.place)
        except OSError:
            return False
        return True

    def tell(self, words: str) -> None:
        """Tells how the night is, once."""
        if words != self.words and self._send(f"STATUS={words}"):
            self.words = words

    def tick(self, words: str) -> None:
        """Tells that a tick was seen: that the night plays, once, and that it goes on."""
        if not self.is_ready and self._send("READY=1", f"STATUS={words}"):
            self.is_ready, self.words = True, words
        now = time.monotonic()
        if self.every is not None and now - self.fed >= self.every:
            self._send("WATCHDOG=1")
            self.fed = now
        self.tell(words)

    def end(self) -> None:
        """Tells that it ends."""
        self._send("STOPPING=1")
