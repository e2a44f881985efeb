"""`tools/sacn-join@.service`: the group and the interface that its instance names."""

import os
import re
import shlex
import subprocess

from program import TOP, FolderTest

UNIT = (TOP / "tools/sacn-join@.service").read_text()


def expand(text, instance):
    """A command line as systemd has it (systemd.unit, systemd.service): `%i` is the instance,
    `%%` a percent sign, `$$` a dollar sign."""
    meant = {"%i": instance, "%%": "%", "$$": "$"}
    return re.sub(r"%i|%%|\$\$", lambda found: meant[found[0]], text)


class SacnJoin(FolderTest):
    def ip_words(self, word, instance):
        """What is asked of `ip` where the unit's line of this word is run."""
        fake = self.file("ip", b'#!/bin/sh\nprintf "%s\\n" "$*"\n')
        fake.chmod(0o755)
        line = re.search(rf"(?m)^{word}=(.*)$", UNIT)[1]
        path = f"{self.folder}:{os.environ['PATH']}"
        words = shlex.split(expand(line, instance))
        done = subprocess.run(
            words, env={"PATH": path}, capture_output=True, text=True, check=True
        )
        return done.stdout.strip()

    def test_instances(self):
        """The group stands behind the last dash; what is before it is the interface."""
        for interface in ("eth0", "br-lan", "a-b-c", "eth0.100", "wlp3s0-"):
            for group in ("239.255.0.1", "239.255.249.255"):
                with self.subTest(interface=interface, group=group):
                    instance = f"{interface}-{group}"
                    joined = f"addr replace {group}/32 dev {interface} autojoin"
                    self.assertEqual(joined, self.ip_words("ExecStart", instance))
                    left = f"addr del {group}/32 dev {interface}"
                    self.assertEqual(left, self.ip_words("ExecStop", instance))
