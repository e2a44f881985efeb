"""A `live` that the desk runs: lines are handed to it, and what it prints is heard.

What the program prints is always read at once, so that it never waits for a reader. It holds the
desk's ends of its pipes open too: should the desk be killed, the program's input does not end and
its output is not refused, and the light stays as it is.
"""

import fcntl
import os
import subprocess
import threading
from collections.abc import Callable

from cueplayer_tools.cue_list import Show
from cueplayer_tools.desk.heard import START_LINES, HeardNight
from cueplayer_tools.desk.input import LiveInput
from cueplayer_tools.line_protocol import Refused
from cueplayer_tools.program import program

# Seconds for what `live` said last, behind its end: the writer of its record, which may wait for a
# disk, has standard error open too.
LAST_WORDS = 2.0
# The most that Linux grants to everybody.
PIPE_ROOM = 1 << 20


def _roomy_pipe() -> tuple[int, int]:
    """A pipe with as much room as the system grants, for a desk that is held up for a while."""
    reader, writer = os.pipe()
    try:
        fcntl.fcntl(writer, fcntl.F_SETPIPE_SZ, PIPE_ROOM)
    except OSError:
        # The usual 64 KB will do.
        pass
    return reader, writer


class Night(HeardNight):
    """The program `live`, as long as it runs, and its state."""

    input: LiveInput

    def __init__(
        self,
        show: Show,
        words: list[str],
        tell: Callable[[str], None],
        keep: Callable[[str], None],
    ) -> None:
        """Starts `live` with these words. Once it is read, `tell` gets what it says on standard
        error, and `keep` each line that it prints; neither may wait."""
        super().__init__(show, LiveInput(), tell, keep)
        self.words = words
        self._begin(words)

    def _begin(self, words: list[str]) -> None:
        self.output, their_output = _roomy_pipe()
        self.messages, their_messages = _roomy_pipe()
        self.readers: list[threading.Thread] = []
        # In a session of its own: control-C at the desk's terminal must not end the light.
        self.process = subprocess.Popen(
            [program(), "live", *words],
            stdin=self.input.theirs,
            stdout=their_output,
            stderr=their_messages,
            pass_fds=(self.input.ours, self.output, self.messages),
            start_new_session=True,
        )
        for theirs in (self.input.theirs, their_output, their_messages):
            os.close(theirs)
        self._ask_place()

    def live(self) -> str:
        """The number of its process."""
        return str(self.process.pid)

    def read(self) -> None:
        """Reads what `live` says, from here on."""
        streams = ((self.output, self._hear), (self.messages, self._hear_message))
        self.readers = [self._reader(stream, hear) for stream, hear in streams]
        threading.Thread(target=self._wait, daemon=True).start()

    def _reader(self, stream: int, hear: Callable[[str], None]) -> threading.Thread:
        def read() -> None:
            with os.fdopen(stream, encoding="latin-1") as lines:
                for line in lines:
                    with self.changed:
                        self._take(hear, line.rstrip("\n"))
                        self._change()

        reader = threading.Thread(target=read, daemon=True)
        reader.start()
        return reader

    def _wait(self) -> None:
        status = self.process.wait()
        for reader in self.readers:
            reader.join(LAST_WORDS)
        with self.changed:
            self.state.status = status
            self._change()

    def can_resume(self) -> bool:
        """Whether its `live` was broken off, and it has a record."""
        state = self.state
        is_broken = state.status not in (None, 0) and not state.is_ending
        return is_broken and "--record" in self.words

    def resume(self) -> None:
        """Starts `live` again where its record breaks off."""
        with self.changed:
            if not self.can_resume():
                raise Refused("the night cannot be taken up: nothing was done")
            self.input.close()
            self.input = LiveInput()
            self.start_lines = list(START_LINES)
            self.is_to_ask, self.is_astray, self.unsure_until = True, False, 0.0
            self.state.status, self.state.is_late = None, False
            self._begin([*(word for word in self.words if word != "--resume"), "--resume"])
            self._change()
        self.read()
        self.tell(f"the night is taken up: live is process {self.live()}")

    def end(self, patience: float) -> int:
        """Ends the night, and waits for `live` to tell its receivers; its status."""
        with self.changed:
            try:
                if not self._is_over():
                    self.input.give("end")
            except Refused:
                pass
        for last_word in (self.process.terminate, self.process.kill):
            try:
                self.process.wait(patience)
            except subprocess.TimeoutExpired:
                last_word()
        status = self.process.wait()
        for reader in self.readers:
            reader.join(LAST_WORDS)
        return status
