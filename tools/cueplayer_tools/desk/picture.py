"""An address as a QR code, where python3-qrcode is there."""

# Two rows of modules in a row of letters, the upper one first; dark modules are left out, since
# terminals are dark.
_LETTERS = {(True, True): " ", (True, False): "▄", (False, True): "▀", (False, False): "█"}


def modules_of(address: str) -> list[str]:
    """The rows of the code, `1` for a dark module, with its quiet edge; none where it cannot be
    made."""
    try:
        from qrcode import QRCode
    except ImportError:
        return []
    code = QRCode(border=4)
    code.add_data(address)
    return ["".join("01"[bool(each)] for each in row) for row in code.get_matrix()]


def text_of(modules: list[str]) -> str:
    """The code in letters of half a row each, for a terminal."""
    rows = [*modules, "0" * len(modules[0])] if len(modules) % 2 else modules
    pairs = zip(rows[::2], rows[1::2])
    return "\n".join(
        "".join(_LETTERS[above == "1", below == "1"] for above, below in zip(*pair))
        for pair in pairs
    )
