"""`tools/desk` and `cueplayer-night` on a machine with two network cards: by which they send and
hear, and what they show of a cable that is out."""

import socket
import subprocess
import uuid

from desk_cards import MULTICAST, DeskCardsTest
from desks import SHOW, Page, watches
from doors import Door
from folders import NIGHT
from networks import EVERYDAY, LIT, OFFICE, PORT, STAGE, Venue
from osc_messages import message
from program import CID, packet
from tooling import PATIENCE, wait_for

NO_LINK = "no link lit: nodes get nothing; check the cable"
ALONE = "they are sent to one receiver alone"


def wait_for_level(page, level):
    """Waits until a page shows this level of the first slot, where the program has `watch`."""

    def shown_level():
        slots = page.newest.get("levels", {}).get("slots", {})
        return int(slots.get("1", "00")[:2], 16)

    if watches():
        wait_for(lambda: shown_level() == level, "the level")


def send(node):
    """Sends as another source at a node, to the group of universe 1."""
    with socket.socket(socket.AF_INET, socket.SOCK_DGRAM) as other:
        other.bind((node.address, 0))
        sent = packet(1, {}, cid=CID, name=f"at {node.address}")
        other.sendto(sent, ("239.255.0.1", PORT))


class DeskCards(DeskCardsTest):
    def test_desks(self):
        self.side_by_side(
            self.named_card,
            self.default_route,
            self.cable,
            self.targets,
            self.no_such_card,
            self.second_machine,
            self.tablet_with_faders,
        )

    def open_desk(self, kept, venue, *words, show=None):
        return super().open_desk(kept, venue, show or self.show, "--cid", uuid.uuid4(), *words)

    def command(self, venue, page, line):
        self.assertEqual(204, venue.console.within(lambda: page.command(line)))

    def named_card(self, kept):
        """The night is sent by the card that is named, and what is sent there is heard."""
        venue = Venue(kept)
        source = ("--name", "the desk", "--ttl", "3")
        page, _ = self.open_desk(kept, venue, "--to", MULTICAST, "--interface", "lit", *source)
        page.wait(ways=[f"from {LIT} (lit)"], troubles=[], notices=[])
        self.command(venue, page, "sub 1 50")
        wait_for_level(page, 128)
        came = venue.stage.wait()[-1]
        name = came.packet[44:108].rstrip(b"\0")
        self.assertEqual((LIT, 3, b"the desk"), (came.source, came.ttl, name))
        self.assertEqual([], venue.office.came(0))

        def other_sources():
            for node in (venue.office, venue.stage):
                node.within(lambda: send(node))
            return page.newest["levels"]["others"]["beside"]

        told = [f"at {STAGE}, priority 100, universe 1"]
        if watches():
            self.assertEqual(told, wait_for(other_sources, "the source"))

    def default_route(self, kept):
        """Where no card is named it is said by which one it sends, and which could be meant."""
        page, _ = self.open_desk(kept, Venue(kept), "--to", MULTICAST)
        page.wait(ways=["from 10.101.1.10 (eth0), the default route"])
        told = f"other cards: lit ({LIT}); --interface lit sends by it"
        wait_for(lambda: page.notices() == [told], "the other card")

    def cable(self, kept):
        """A cable that is out is shown until it is in again, also to a page that is opened then."""
        venue = Venue(kept)
        page, told = self.open_desk(kept, venue, "--to", MULTICAST, "--interface", LIT)
        venue.stage.ip("link set port down")
        shown = self.assertShows(page, NO_LINK)
        self.command(venue, page, "go")
        page.wait(current="1", troubles=[shown])
        again = venue.console.within(lambda: Page(self, f"{page.origin}{page.path}"))
        again.wait(troubles=[shown])
        told.find(rf"desk: live: \d+:\d\d:\d\d {NO_LINK}$")
        venue.stage.ip("link set port up")
        page.wait(troubles=[])
        again.wait(troubles=[])

    def targets(self, kept):
        """Levels are received of the universes that go to groups, and of no others."""
        venue, show = Venue(kept), self.file("wide.asc", SHOW + b"PATCH 1 1<513@FL\n")
        named = (f"2={STAGE}", f"2={OFFICE}", f"1={MULTICAST}")
        words = [*(f"--to={word}" for word in named), "--interface", "lit", "--any-route"]
        page, _ = self.open_desk(kept, venue, *words, show=show)
        self.command(venue, page, "sub 1 50")
        wait_for_level(page, 128)
        if watches():
            self.assertEqual({"2": ALONE}, page.newest["levels"]["reasons"])
            self.assertEqual({"1"}, set(page.newest["levels"]["slots"]))
        self.assertEqual({STAGE, "239.255.0.1"}, {each.to for each in venue.stage.wait()})

    def second_machine(self, kept):
        """Another machine plays by the PIN, and by nothing else; both show the same."""
        venue = Venue(kept)
        words = (self.show, "--cid", uuid.uuid4(), "--to", MULTICAST, "--interface", "lit")
        out, told = self.begin_desk(kept, venue, *words, "--listen", f"{LIT}:8090")
        here = out.next().removeprefix("desk: ")
        door = Door(out.next())
        self.assertEqual(f"http://{LIT}:8090", door.origin)
        told.find("desk: no TLS: the network is trusted")
        self.assertEqual(401, venue.stage.within(lambda: door.request("GET", "/events")[0]))
        self.assertEqual(204, venue.stage.within(lambda: door.enter(door.play)[0]))
        guest = venue.stage.within(lambda: Page(self, f"{door.origin}/", door.cookie))
        guest.wait(placed=True)
        self.assertEqual(204, venue.stage.within(lambda: guest.command("go")))
        page = venue.console.within(lambda: Page(self, here))
        for each in (page, guest):
            each.wait(current="1", next="1.5", waiting=0)
        wait_for_level(guest, 128)
        # A session that was carried to a third machine is none.
        venue.console.ip("addr add 10.101.2.11/24 dev lit")
        self.assertEqual(401, venue.console.within(lambda: door.request("GET", "/events")[0]))
        # The page by its word is served to its own machine alone.
        with self.assertRaises(OSError):
            venue.stage.within(lambda: Page(self, here.replace("127.0.0.1", LIT)))

    def tablet_with_faders(self, kept):
        """Open Sound Control comes from another machine, where an address is named."""
        venue = Venue(kept)
        words = ("--to", MULTICAST, "--interface", "lit", "--osc", f"{LIT}:8000")
        page, _ = self.open_desk(kept, venue, *words)
        self.assertEqual(f"{LIT}:8000", page.newest["show"]["osc"])

        def send():
            with socket.socket(socket.AF_INET, socket.SOCK_DGRAM) as tablet:
                tablet.sendto(message("/cueplayer/sub/1", 0.5), (LIT, 8000))

        wait_for(lambda: venue.stage.within(send) or page.state["masters"], "the fader")
        page.wait(masters={"sub 1": 128})

    def no_such_card(self, kept):
        """What `live` refuses of a card is told, and nothing begins."""
        words = (self.show, "--cid", uuid.uuid4(), "--to", MULTICAST, "--interface", "eth7")
        _, told = self.begin_desk(kept, Venue(kept), *words)
        told.find("desk: live: no card eth7: there are eth0 ")
        told.find("desk: live has ended with status 2")


class NightCards(DeskCardsTest):
    """The same of a night that `cueplayer-night` keeps going."""

    def test_nights(self):
        self.side_by_side(self.cable, self.card_that_is_late, self.two_desks)

    def night(self, kept, name):
        """A network, and what runs the script over a night there."""
        venue = Venue(kept)

        def run_script(*words):
            words = venue.console.words(NIGHT, self.folder / name, *words)
            return subprocess.run(words, capture_output=True, text=True, timeout=2 * PATIENCE)

        kept.callback(run_script, "halt")
        return venue, run_script

    def cable(self, kept):
        """A desk that comes later shows the cable that is out, and so does `status`."""
        venue, run_script = self.night(kept, "tonight")
        words = ("--to", MULTICAST, "--interface", "lit", "--cid", uuid.uuid4())
        begun = run_script("start", self.show, *words, "--background")
        self.assertIn(f"\nfrom {LIT} (lit)\n", begun.stdout)
        venue.stage.wait()
        venue.stage.ip("link set port down")
        wait_for(lambda: NO_LINK in run_script("status").stdout, "the cable")
        page, _ = self.open_desk(kept, venue, "--night", self.folder / "tonight")
        self.assertShows(page, NO_LINK)
        venue.stage.ip("link set port up")
        page.wait(troubles=[])
        self.assertNotIn(f"from {LIT}", run_script("status").stdout)

    def two_desks(self, kept):
        """Two desks of one night, each open on another machine, show the same, whoever presses."""
        venue, run_script = self.night(kept, "of two")
        words = ("--to", MULTICAST, "--interface", "lit", "--cid", uuid.uuid4())
        self.assertEqual(0, run_script("start", self.show, *words, "--background").returncode)
        guests = []
        for node, address in ((venue.stage, LIT), (venue.office, EVERYDAY)):
            listen = ("--listen", f"{address}:8090", "--double-go", 0)
            words = ("--night", self.folder / "of two", *map(str, listen))
            out, _ = self.begin_desk(kept, venue, *words)
            out.next()
            door = Door(out.next())
            self.assertEqual(204, node.within(lambda: door.enter(door.play)[0]))
            guest = node.within(lambda: Page(self, f"{door.origin}/", door.cookie))
            guest.wait(placed=True)
            guests.append((node, guest))

        def press(at, line, **shown):
            node, guest = guests[at]
            self.assertEqual(204, node.within(lambda: guest.command(line)))
            for _, each in guests:
                each.wait(**shown)

        press(0, "go", current="1", next="1.5")
        press(1, "go", current="1.5", next="2")
        press(1, "sub 1 50", masters={"sub 1": 128}, current="1.5")
        press(0, "back", current="1", next="1.5", masters={"sub 1": 128})
        press(1, "master H00", grand=0, lit_grand=255)
        press(0, "master HFF", grand=255)

    def card_that_is_late(self, kept):
        """A night that begins with its machine waits for its card."""
        venue, run_script = self.night(kept, "late")
        words = ("--to", MULTICAST, "--interface", LIT, "--cid", uuid.uuid4())
        venue.console.ip(f"addr del {LIT}/24 dev lit")
        refused = run_script("start", self.show, *words)
        self.assertEqual(2, refused.returncode)
        self.assertIn(f"no card has {LIT}: there are ", refused.stdout)
        self.assertEqual(0, run_script("make", self.show, *words).returncode)
        begun = run_script("start", "--background")
        self.assertEqual(0, begun.returncode)
        self.assertIn("live waits for its network card", begun.stdout)
        venue.console.ip(f"addr add {LIT}/24 dev lit")
        self.assertEqual({LIT}, {each.source for each in venue.stage.wait()})
