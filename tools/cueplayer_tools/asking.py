"""Questions at a terminal."""

import os
import sys

from cueplayer_tools.line_protocol import Refused


def is_at_terminal() -> bool:
    """Whether somebody can be asked: who reads a terminal in the background is stopped."""
    if not sys.stdin.isatty() or not sys.stderr.isatty():
        return False
    try:
        return os.tcgetpgrp(sys.stdin.fileno()) == os.getpgrp()
    except OSError:
        # It is the terminal of others, which stops nobody.
        return True


def answer_to(question: str, answers: tuple[str, ...]) -> str:
    """Asks until the answer is one of these; Refused where none comes."""
    while True:
        try:
            print(question, end="", file=sys.stderr, flush=True)
            word = sys.stdin.readline()
        except KeyboardInterrupt:
            word = ""
        if not word:
            print(file=sys.stderr)
            raise Refused("nothing was begun")
        if word.strip().lower() in answers:
            return word.strip().lower()


def says_yes(question: str) -> bool:
    """Asks until the answer is yes or no."""
    return answer_to(question, ("y", "yes", "n", "no")).startswith("y")
