"""The jobs of the program, their words and their options, as its own help names them."""

import functools
import re
from typing import NamedTuple

from program import run


class Job(NamedTuple):
    """The words of a job in their order, and its options, each with the name of its value: none of
    a flag."""

    arguments: list
    options: dict


def help_of(*words):
    return run(*words, "--help").out.decode()


@functools.lru_cache(maxsize=None)
def jobs():
    """Each job by its name. The word help is none."""
    listed = help_of().partition("Commands:\n")[2].partition("\n\n")[0]
    names = [name for name in re.findall(r"(?m)^  (\w+) ", listed) if name != "help"]
    return {name: job_in(help_of(name)) for name in names}


def job_in(text):
    """The job whose help this is."""
    listed = text.partition("Arguments:\n")[2].partition("\n\n")[0]
    arguments = re.findall(r"(?m)^  <([A-Z]+)>", listed)
    options = text.partition("Options:\n")[2].partition("\n\n")[0]
    return Job(arguments, dict(re.findall(r"(?m)^ +(--[a-z-]+)(?: <([A-Z]+)>)?", options)))
