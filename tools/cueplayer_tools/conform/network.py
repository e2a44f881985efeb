"""A network of this run's own, in which another maker's program hears nobody else and nobody
hears it."""

import os
import shutil
import subprocess
import sys
from pathlib import Path

from cueplayer_tools.line_protocol import Refused

HERE, SECOND = "10.77.0.1", "10.77.0.2"
# More groups than a machine joins unless it is told to.
MEMBERSHIPS = Path("/proc/sys/net/ipv4/igmp_max_memberships")
MOST_GROUPS = 200
_IS_INSIDE = "CUEPLAYER_CONFORM_NETWORK"
LINK = (
    "link set lo up",
    "link add stage type veth peer name hall",
    "link set hall up",
    f"addr add {HERE}/24 dev stage",
    f"addr add {SECOND}/24 dev stage",
    "link set stage up",
    "route add 239.0.0.0/8 dev stage",
)


def enter_own_network(script: Path, words: list[str]) -> None:
    """Begins this run anew in a network of its own, unless it is in one; refuses where there can
    be none."""
    if os.environ.get(_IS_INSIDE) == "1":
        _make_link()
        return
    if not shutil.which("unshare") or not shutil.which("ip"):
        raise Refused("a network of its own needs unshare and ip, of util-linux and iproute2")
    if os.geteuid() != 0:
        raise Refused("only root can give another program a network of its own: run this as root")
    alone = ["unshare", "--net", "true"]
    made = subprocess.run(alone, capture_output=True, text=True, check=False)
    if made.returncode:
        raise Refused(f"cannot make a network of its own: {made.stderr.strip()}")
    os.environ[_IS_INSIDE] = "1"
    os.execvp("unshare", ["unshare", "--net", sys.executable, str(script), *words])


def _make_link() -> None:
    """Only where there is nothing but a loopback, as in a network that was just made."""
    shown = subprocess.run(["ip", "-o", "link"], capture_output=True, text=True, check=False)
    if len(shown.stdout.splitlines()) != 1:
        raise Refused(f"{_IS_INSIDE} is set, and this is no network of its own: unset it")
    for words in LINK:
        done = subprocess.run(["ip", *words.split()], capture_output=True, text=True, check=False)
        if done.returncode:
            raise Refused(f"ip {words}: {done.stderr.strip()}")
    MEMBERSHIPS.write_text(str(MOST_GROUPS))
