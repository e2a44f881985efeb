"""The blocks of code in a page."""

import re

from program import TOP


def blocks(document):
    """The fenced blocks of a document, in order."""
    return re.findall(r"^```\n(.*?)^```$", (TOP / document).read_text(), re.MULTILINE | re.DOTALL)
