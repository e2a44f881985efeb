"""Work side by side: one piece a processor, as many as memory holds."""

import os
import re
import threading
from collections.abc import Callable, Iterator
from concurrent.futures import ThreadPoolExecutor, as_completed
from contextlib import contextmanager
from pathlib import Path
from typing import TypeVar

from wrong_bodies.crates import below, size

Result = TypeVar("Result")

# A check takes so much at least, and so much for each line of its crate and of those below.
LEAST, A_LINE, A_LINE_BELOW = 1_000_000_000, 300_000, 20_000
# So much of what is free is used.
SHARE = 0.85


def free_memory() -> int:
    """How many bytes are free."""
    found = re.search(r"MemAvailable:\s+(\d+) kB", Path("/proc/meminfo").read_text())
    return 1024 * int(found[1]) if found else LEAST


def need(crate: str) -> int:
    """How many bytes a check of a crate is likely to take at most."""
    return LEAST + A_LINE * size(crate) + A_LINE_BELOW * sum(map(size, below(crate)))


class Memory:
    """What is left of the memory that was free at the start."""

    def __init__(self) -> None:
        self.most = self.left = int(SHARE * free_memory())
        self.changed = threading.Condition()

    @contextmanager
    def taken(self, bytes_needed: int) -> Iterator[None]:
        """Waits for this much, or for all there is, and gives it back behind the block."""
        bytes_needed = min(bytes_needed, self.most)
        with self.changed:
            self.changed.wait_for(lambda: self.left >= bytes_needed)
            self.left -= bytes_needed
        try:
            yield
        finally:
            with self.changed:
                self.left += bytes_needed
                self.changed.notify_all()


def in_lanes(
    crates: list[str], lanes: int, work: Callable[[str], Result]
) -> Iterator[tuple[str, Result]]:
    """What this work gives for each crate, as it ends. It begins in the order of the list."""
    memory = Memory()

    def with_memory(crate: str) -> Result:
        with memory.taken(need(crate)):
            return work(crate)

    with ThreadPoolExecutor(lanes) as pool:
        running = {pool.submit(with_memory, crate): crate for crate in crates}
        for done in as_completed(running):
            yield running[done], done.result()


def processors() -> int:
    """How many processors this process may use."""
    return len(os.sched_getaffinity(0))
