"""What the tests share of a backup that follows a night."""

import tempfile
from pathlib import Path

from program import CID
from restart_nights import SHOW, RestartTest
from restarts import head, moments, sent_by, wait_until

BACKUP = CID[:-1] + "2"
# Of a backup; the main has 100.
PRIORITY = 90
# Of a main whose lines the test writes itself, or that is to lead however late it is.
LONG = "60000"
LEADS = rb"the main leads; "


class FollowTest(RestartTest):
    def backup(self, record, *options, show=SHOW, silence=LONG, **kept):
        """A night that follows this record; it runs, and has taken up what stands there."""
        words = ["--follow", record, "--patience", str(silence), "--priority", str(PRIORITY)]
        night = self.night(*words, *options, show=show, cid=BACKUP, **kept)
        night.begin(resume=False)
        night.tells(LEADS)
        return night

    def both(self, *lines, **kept):
        """A main at which these lines were typed, and its backup; both send, and have them."""
        main = self.night()
        main.begin()
        main.light(2)
        backup = self.backup(main.record, **kept)
        main.type_commands(b"".join(lines))
        self.follows(main, backup)
        return main, backup

    def follows(self, main, backup):
        """The backup has carried out what the main had recorded, and sent its light."""
        recorded = len(moments(main.record.read_bytes(), rb"\w"))
        wait_until(
            lambda: len(moments(backup.record.read_bytes(), rb"\w")) >= recorded,
            "the backup follows",
        )
        backup.light(2)

    def write_and_follow(self, *lines, **kept):
        """A record that the test writes, and a night that follows it."""
        record = Path(tempfile.mkdtemp(dir=self.folder), "main.play")
        record.write_bytes(head(SHOW))
        self.write(record, *lines)
        return record, self.backup(record, **kept)

    def write(self, record, *lines):
        with open(record, "ab", buffering=0) as file:
            file.write(b"".join(line.encode() + b"\n" for line in lines))

    def meant_packets(self, night):
        """What the record of a backup means, as packets of its own."""
        return list(sent_by(SHOW, night.record.read_bytes(), BACKUP, PRIORITY))

    def assertStream(self, night):
        """What was heard of a backup is the end of what its record means. Answers that end."""
        meant = self.meant_packets(night)[-len(night.heard) :]
        self.assertEqual([each.packet for each in meant], [each.packet for each in night.heard])
        return meant

    def assertTold(self, night, *lines):
        """Answers what was printed and told by a night that does not run any more."""
        ((out, err),) = night.outputs()
        for line in lines:
            self.assertRegex(err, rb"(?m)^" + line)
        return out, err
