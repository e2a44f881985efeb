"""`listen` on a network: what another machine sends to a multicast group, in two network
namespaces."""

import subprocess

from program import CID, PROGRAM, FolderTest, text
from wire import own_network

SHOW = text("CUE 1", "UP 0", "CHAN 1@H80", "PATCH 1 1<1@FL")

# Two machines with a cable between them: this one joins the group of universe 1 as the operators'
# page has it, and listens; the other plays to the groups.
TWO_MACHINES = """
set -e
program=$1 show=$2 cid=$3 at=$4
ip link set lo up
ip link add veth0 type veth peer name veth1
unshare --net sleep 60 &
other=$!
trap 'kill $other $(jobs -p) 2>/dev/null' EXIT
until [ "$(readlink /proc/$other/ns/net)" != "$(readlink /proc/$$/ns/net)" ]; do sleep 0.02; done
ip link set veth1 netns $other
ip link set veth0 up
ip addr add 10.9.0.1/24 dev veth0
ip addr add 239.255.0.1/32 dev veth0 autojoin
there() { nsenter --target $other --net "$@"; }
there ip link set veth1 up
there ip addr add 10.9.0.2/24 dev veth1
there ip route add 239.0.0.0/8 dev veth1
until ip link show veth0 | grep -q 'state UP'; do sleep 0.02; done
timeout 30 "$program" listen "$at" 1 1 &
listening=$!
until grep -q ' [0-9A-F]*:15C0 ' /proc/net/udp; do sleep 0.02; done
printf '0 goto 1\\n10 tick\\n' |
    there "$program" play "$show" --to 239.255.0.0 --cid "$cid" >/dev/null
wait $listening
"""


class Network(FolderTest):
    SHOW = SHOW

    def listen(self, at):
        """What `listen` at this address prints of a console on the other machine."""
        namespace = own_network(self, "bash", "nsenter", "timeout")
        words = [
            *namespace,
            "bash",
            "-c",
            TWO_MACHINES,
            "two-machines",
            PROGRAM,
            self.show,
            CID,
            at,
        ]
        done = subprocess.run(words, capture_output=True, timeout=90)
        return done.returncode, done.stdout

    def test_joined_group(self):
        """A machine that joined the group hears the console, at the group's address and at any."""
        for at in ("239.255.0.1", "0.0.0.0"):
            self.assertEqual((0, b"1 taken 0\nslots 1:128\n"), self.listen(at), at)
