"""Files of a night that are kept under other names."""

import os
import time

from cueplayer_tools.keeper.folder import Folder


def put_aside(folder: Folder, name: str, why: str) -> str:
    """Keeps a file under another name; that name. Nothing that was kept is replaced."""
    when = time.strftime("%Y-%m-%dT%H%M%S")
    kept = f"{name}-{why}-{when}"
    count = 1
    while os.path.lexists(folder.file(kept)):
        count += 1
        kept = f"{name}-{why}-{when}-{count}"
    os.rename(folder.file(name), folder.file(kept))
    return kept
