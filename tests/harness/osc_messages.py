"""Messages of Open Sound Control, written from its specification."""

import struct


def pad(text):
    """An OSC string: one to four zero bytes behind it."""
    return text + bytes(4 - len(text) % 4)


def message(address, *arguments, tags=None):
    """An OSC message, by the types of its arguments."""
    forms = {int: "i", float: "f", str: "s", bool: "?"}
    letters = "".join(forms[type(each)] for each in arguments)
    data = b""
    for letter, value in zip(letters, arguments):
        if letter == "s":
            data += pad(value.encode())
        elif letter in "if":
            data += struct.pack(">" + letter, value)
    letters = letters.replace("?", "T" if True in arguments else "F")
    return pad(address.encode()) + pad(b"," + (tags or letters).encode()) + data


GO = message("/cueplayer/go")
GREATEST_DOUBLE = message("/cueplayer/goto", tags="d") + struct.pack(">d", 1e308)
