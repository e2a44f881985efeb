"""Languages that a machine may lack, made where it has what they are made of."""

import shutil
import subprocess

# One whose numbers have a decimal comma.
COMMA = "de_DE.UTF-8"


def make_language(place: str) -> dict[str, str]:
    """Makes the one with a comma in a folder; what is in the environment of who speaks it, nothing
    where it cannot be made."""
    if not shutil.which("localedef"):
        return {}
    name, charset = COMMA.split(".")
    words = ["localedef", "-i", name, "-f", charset, f"{place}/{COMMA}"]
    # It tells of what it leaves out by its status too.
    made = subprocess.run(words, capture_output=True).returncode in (0, 1)
    return {"LC_ALL": COMMA, "LOCPATH": place} if made else {}
