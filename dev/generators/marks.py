"""The blocks of a file that are generated: what stands between two lines of marks."""

import re
from pathlib import Path

TOP = Path(__file__).resolve().parents[2]


class MarksMissing(Exception):
    """A file has no block of this name."""

    def __init__(self, file: str, block: str) -> None:
        super().__init__(
            f"{file} has no lines `dev/pages writes {block} from ..` and `end of {block}`"
        )


def with_block(file: str, block: str, content: str, text: str) -> str:
    """The file's text with this content between the marks of the block. The lines of the marks
    stay."""
    first = re.search(rf"(?m)^.*\bdev/pages writes {re.escape(block)} from\b.*\n", text)
    last = re.search(rf"(?m)^.*\bend of {re.escape(block)}(?: -->)?\n", text)
    if not first or not last or last.start() < first.end():
        raise MarksMissing(file, block)
    return text[: first.end()] + content + text[last.start() :]
