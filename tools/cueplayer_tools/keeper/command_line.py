"""The words of `cueplayer-night`: its help, and which command does what."""

import os

from cueplayer_tools.keeper.folder import UNSEEN, Folder, whole_path
from cueplayer_tools.keeper.streams import (
    Failure,
    complain,
    end_by,
    hold_streams,
    reason,
    refusal,
    show,
)

HELP = """\
Keeps a night going around `cueplayer live`

usage: cueplayer-night NIGHT start SHOW --to TARGET --cid UUID [OPTION ..]
       cueplayer-night NIGHT start [--background] [--if-refused begin]
       cueplayer-night NIGHT COMMAND

NIGHT is a folder. `start SHOW ..` makes it, with the words of `cueplayer live`, and begins the
night; `start` alone goes on with it, as after a crash. A spare stands by: if `live` dies, it goes
on at once.

  start       keeps the night going, here, until it ends; --background: without this terminal;
              --if-refused begin: in the last cue, if the record cannot be taken up
  make        only makes the folder: `make SHOW --to TARGET --cid UUID ..`
  go, back, goto 4.5, goto 4.5 in 3, sub 3 50, group 1 FL, master 80, where
              commands of `live`: the answer is printed
  end, leave  end the night: dark, or leaving the light to others; `stop` is `end`
  halt        ends `live` and what keeps it, not the night: `start` goes on with it
  update      checks another SHOW, with which the next `start` begins in the cue that is on
  status      whether the night is played, which cue is on, and what went wrong
  watch       shows the replies as they come

Status 0: done. 1: not done, or refused. 2: other words than these. `start` ends with the status of
`live`.
"""
# What a command has to look into, and one that tells who plays.
_GIVEN = ("night", "in", "replies")
_LOOKS, _LOOKED = ("start", "make", "halt", "status"), (*_GIVEN, "lock", "pid", "spare", "record")
_COMMANDS = ("go", "back", "goto", "sub", "group", "master", "where", "end", "leave")


def _run(words: list[str], top: str) -> int:
    """Runs a command; modules of others are not read for it."""
    if words[:1] in (["-h"], ["--help"], ["help"]):
        show(HELP.encode())
        return 0
    if not words or not words[0] or words[0].startswith("-"):
        raise refusal("name the folder NIGHT first")
    folder = Folder(whole_path(words[0]))
    job, rest = words[1] if len(words) > 1 else "", words[2:]
    folder.check_seen(UNSEEN if job == "status" else 1, *(_LOOKED if job in _LOOKS else _GIVEN))
    if job in _COMMANDS or job == "stop":
        from cueplayer_tools.keeper.commands import command_night

        return command_night(folder, "end" if job == "stop" else " ".join([job, *rest]))
    if job == "start":
        from cueplayer_tools.keeper.start import start_night

        return start_night(folder, rest, os.path.join(top, "cueplayer"))
    if job == "make":
        from cueplayer_tools.keeper.new_folder import live_words, make_folder

        make_folder(folder, live_words(rest))
        return 0
    if job == "update":
        from cueplayer_tools.keeper.update import update_night

        return update_night(folder, rest, os.path.join(top, "cueplayer"))
    if job in ("status", "halt", "watch"):
        from cueplayer_tools.keeper import status

        if job == "status":
            return status.show_status(folder, rest)
        return status.halt_night(folder) if job == "halt" else status.watch_night(folder)
    raise refusal(f"no such command: {job}" if job else "no command")


def main(words: list[str], top: str) -> int:
    """Runs the tool with these words, beside `cueplayer` in this folder; its exit status."""
    hold_streams()
    # A night is nobody else's: who may read its lock may hold it.
    os.umask(0o077)
    try:
        return _run(words, top)
    except Failure as failure:
        complain(str(failure))
        return failure.status
    except OSError as fault:
        named = f"{os.fsdecode(fault.filename)}: " if fault.filename else ""
        complain(f"{named}{reason(fault)}")
    except KeyboardInterrupt:
        end_by("SIGINT")
    return 1
