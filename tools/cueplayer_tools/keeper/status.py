"""What is told of a night: its status, its replies as they come, and that it was halted."""

import json
import os
import time

from cueplayer_tools.keeper.folder import UNSEEN, Folder
from cueplayer_tools.keeper.growth import Follower
from cueplayer_tools.keeper.health import Health
from cueplayer_tools.keeper.pipes import find_writers
from cueplayer_tools.keeper.players import await_start, find_keeper, find_live, find_spare
from cueplayer_tools.keeper.processes import await_gone, put_down
from cueplayer_tools.keeper.streams import Failure, complain, reason, refusal, show, show_line

# How many of the last lines `watch` begins with, and how often it looks for another file.
_MOST_WATCHED, _LOOK_EVERY = 20, 0.5
_PART = 1 << 16


def _show_players(health: Health) -> None:
    """Shows who plays the night, and who keeps it."""
    start = f"`cueplayer-night {health.folder.path} start`"
    if health.live is not None:
        show_line(f"live is process {health.live}, since {health.since or 'an unknown time'}")
    elif health.has_ended:
        show_line("the night has ended")
    else:
        show_line(f"no live plays the night: {start} goes on with it")
    if health.keeper is not None:
        show_line(f"kept going by process {health.keeper}")
    if health.began is not None:
        show_line(f"began: {health.began}")
    if health.spare is not None:
        show_line(f"a spare stands by: process {health.spare}")
    show_line(f"restarts: {health.restarts}")
    if health.place is not None:
        show_line(health.place)


def show_status(folder: Folder, given: list[str]) -> int:
    """Shows how the night is; 0 where all is well with it."""
    if given not in ([], ["--json"]):
        raise refusal("status wants nothing, or --json")
    if not folder.is_file("night"):
        raise Failure(f"no night in {folder.path}")
    try:
        health = Health(folder)
    except Failure as failure:
        raise Failure(str(failure), UNSEEN) from failure
    if given:
        show_line(json.dumps(health.as_json()))
        return health.status()
    _show_players(health)
    for each in health.trouble:
        show_line(f"trouble{'' if each.since is None else f' since {each.since}'}: {each.text}")
    if health.events:
        show_line(f"what happened last, in {folder.file('replies')}:")
        show(b"".join(b"  " + os.fsencode(line) + b"\n" for line in health.events))
    return health.status()


def halt_night(folder: Folder) -> int:
    """Ends what plays the night, and what keeps it: first who would start it again, and who would
    go on."""
    if find_live(folder) is None and find_keeper(folder) is None:
        raise Failure(f"nothing plays the night in {folder.path}")
    put_down(find_keeper(folder))
    await_start(folder)
    playing = [each for each in (find_spare(folder), find_live(folder)) if each is not None]
    writers = [each for number in playing for each in find_writers(number)]
    for number in playing:
        put_down(number)
    await_gone(writers)
    show_line(folder.note("halted, and not over: `start` goes on with it"))
    return 0


def _last_lines(follower: Follower) -> bytes:
    """The last lines that a file has, as `watch` begins with them; it goes on behind them."""
    size = os.fstat(follower.file).st_size
    follower.start, last = size, b""
    while follower.start > 0 and last.count(b"\n") <= _MOST_WATCHED:
        start = max(follower.start - _PART, 0)
        last = os.pread(follower.file, follower.start - start, start) + last
        follower.start = start
    follower.start = size
    return b"".join(last.splitlines(keepends=True)[-_MOST_WATCHED:])


def watch_night(folder: Folder) -> int:
    """Shows the replies as they come, until it is ended; those of the next night too."""
    path, is_told = folder.file("replies"), False
    is_first = True
    while True:
        try:
            follower = Follower(path, 0)
        except OSError as fault:
            if not is_told:
                complain(f"cannot read {path}: {reason(fault)}; waits for it")
            is_told, is_first = True, False
            time.sleep(_LOOK_EVERY)
            continue
        if is_first:
            show(_last_lines(follower))
        is_first = False
        content = b""
        while content or not follower.is_replaced():
            if content := follower.read():
                show(content)
            else:
                follower.growth.wait(_LOOK_EVERY)
        follower.close()
