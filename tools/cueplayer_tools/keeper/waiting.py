"""Waiting for descriptors of the system."""

import select


def wait_for(descriptors: list[int], seconds: float) -> list[int]:
    """Those of the descriptors that are ready, once one is, or behind so many seconds."""
    poll = select.poll()
    for each in descriptors:
        poll.register(each, select.POLLIN)
    return [each for each, _ in poll.poll(round(1000 * seconds))]
