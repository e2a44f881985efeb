"""What people type, as the lines of `live`."""

import re

# Words of a theatre for what `live` has a line for already.
_WHOLE = {"blackout": "master 0", "full": "master FL"}
_PERCENT = re.compile(r"((?:sub|group)\s+\d+|master)\s+(\d{1,3})\s*%", re.IGNORECASE | re.ASCII)
_CUE = re.compile(r"cue(\s+\S.*)", re.IGNORECASE | re.ASCII)
HELP = (
    "cue 4.5               goto 4.5, and cue 4.5 in 3",
    "blackout, full        master 0, master FL; a level may have its %: sub 3 50%",
)


def live_line(typed: str) -> str:
    """The line of `live` that this means; what has no other meaning stays as it was typed."""
    said = typed.strip()
    if line := _WHOLE.get(said.lower()):
        return line
    if found := _PERCENT.fullmatch(said):
        return f"{found[1]} {found[2]}"
    if found := _CUE.fullmatch(said):
        return f"goto{found[1]}"
    return typed
