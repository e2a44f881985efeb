"""The look of each cue, for pages that show one blind: read once, beside the night."""

import threading

from cueplayer_tools.cue_list import Show
from cueplayer_tools.line_protocol import Refused, cue_word
from cueplayer_tools.looks import looks_of, slots_in

SLOTS = 512
# So many universes of looks, of 512 bytes each, are kept.
MOST_UNIVERSES = 32_768


def _bytes_of(text: str) -> bytes:
    """The slots of a slots line, as a universe of level bytes."""
    slots = bytearray(SLOTS)
    for slot, level in slots_in(text).items():
        slots[slot - 1] = level
    return bytes(slots)


class BlindLooks:
    """The slots of each cue at full, by universe, as the program shows them."""

    def __init__(self, file: str, show: Show, base: int) -> None:
        """Begins to read them; nobody waits for that."""
        self.looks: dict[str, dict[int, bytes]] = {}
        self.reason = "the looks are being read: tap again in a moment"
        threading.Thread(target=self._read, args=(file, show, base), daemon=True).start()

    def _read(self, file: str, show: Show, base: int) -> None:
        if len(show.order) * len(show.universes(base)) > MOST_UNIVERSES:
            self.reason = "the show has too many cues to keep their looks"
            return
        try:
            looks = looks_of(file, show)
        except (Refused, OSError, ValueError) as fault:
            self.reason = f"the looks cannot be read: {fault}"
            return
        self.looks = {
            cue_word(cue): {base + at - 1: _bytes_of(text) for at, text in look.items()}
            for cue, look in looks.items()
        }
        self.reason = "there is no such cue"

    def look(self, cue: str) -> dict[int, bytes] | None:
        """The level bytes of a cue, by universe; None where they are not known, and `reason` says
        why."""
        return self.looks.get(cue)
