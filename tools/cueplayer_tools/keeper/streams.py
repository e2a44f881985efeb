"""Standard streams, and how a command fails: by one line, whatever is in the name of a folder."""

import errno
import os


class Failure(Exception):
    """A command that cannot be carried out: why, and its exit status."""

    def __init__(self, text: str, status: int = 1) -> None:
        super().__init__(text)
        self.status = status


def refusal(text: str) -> Failure:
    """That of other words than the help has."""
    return Failure(f"{text}; --help lists the commands", 2)


def reason(fault: OSError) -> str:
    """Why the system refused something."""
    return fault.strerror or str(fault)


def has_control(text: str) -> bool:
    """Whether a text has a control character of ASCII."""
    return any(letter < " " or letter == "\x7f" for letter in text)


def hold_streams() -> None:
    """Opens each standard stream that is closed: else the next file would take its number, and
    get what is printed."""
    while (file := os.open(os.devnull, os.O_RDWR)) <= 2:
        os.set_inheritable(file, True)
    os.close(file)


def write_all(file: int, content: bytes) -> None:
    """Writes all of it, and waits for the reader; OSError where that is not possible."""
    while content:
        try:
            content = content[os.write(file, content) :]
        except BlockingIOError:
            import select

            room = select.poll()
            room.register(file, select.POLLOUT)
            room.poll()


def end_by(name: str) -> None:
    """Ends this process by a signal."""
    # It takes a third of the time of a command to come, and most have no use for it.
    import signal

    signal.signal(signal.Signals[name], signal.SIG_DFL)
    os.kill(os.getpid(), signal.Signals[name])


def complain(text: str) -> None:
    """Tells on standard error, in one line."""
    shown = "".join("?" if has_control(letter) else letter for letter in text)
    try:
        write_all(2, os.fsencode(f"cueplayer-night: {shown}\n"))
    except OSError:
        # Nobody reads there.
        pass


def show(content: bytes) -> None:
    """Writes to standard output. What was carried out stays so where that is not possible."""
    try:
        write_all(1, content)
    except OSError as fault:
        if fault.errno == errno.EPIPE:
            # As any filter ends whose reader has gone.
            end_by("SIGPIPE")
        complain(f"standard output: {reason(fault)}")


def show_line(text: str) -> None:
    show(os.fsencode(text) + b"\n")
