"""What the tests of desks share over a night that is kept in a folder."""

from desks import Page
from folders import FolderNightTest
from tooling import Started


class DeskFolderTest(FolderNightTest):
    def desk(self, *options):
        """A desk that has taken hold of the night, and an open page of it."""
        desk = Started(self, "desk", "--night", self.night, *options)
        line = desk.out.next()
        self.assertRegex(line or "", r"^desk: http://127\.0\.0\.1:\d+/[\w-]{32}/$")
        told = f"desk: console {self.cid}, live is process {self.number('pid')}"
        self.assertEqual(told, desk.err.next())
        page = Page(self, line.removeprefix("desk: "))
        page.wait(placed=True)
        return desk, page
