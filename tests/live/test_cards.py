"""Two network cards: by which one packets leave, and what a night tells when nobody hears it."""

import re
import subprocess
import time
import uuid
from contextlib import contextmanager

from machine import in_time, took
from networks import EVERYDAY, LIT, OFFICE, STAGE, NetworkTest, Night, Node, Venue, universes
from program import CID, LIVE_NAME, FolderTest, packet, text
from tooling import wait_for
from wire import SLOT_1

SHOW = text("CUE 1", "UP 0", "CHAN 1@H80", "PATCH 1 1<1@FL 1<513@FL")
MULTICAST = "239.255.0.0"
# That of universe 1.
GROUP = "239.255.0.1"
ONE_TICK = b"0 goto 1\n10 tick\n"
# A trouble is told within so many milliseconds.
SOON = 2000
# For so many seconds it is looked whether packets come: a stage that stands still has one in 0.8.
DURING = 1.2
# In so many seconds the packets of a tick are there, also on a machine that is busy.
A_TICK = 0.1


def groups(*numbers):
    """The multicast groups of universes (E1.31-2018, 9.3.1)."""
    return {f"239.255.{number >> 8}.{number & 255}" for number in numbers}


def hosts(came):
    """Where datagrams went to."""
    return {each.to for each in came}


class CardsTest(NetworkTest, FolderTest):
    SHOW = SHOW

    def setUp(self):
        super().setUp()
        # How long it took to tell each trouble.
        self.waits = []

    def arrivals(self, venue, *words, cid=None):
        """What the office and the stage get of a run of `play`, under a CID of its own."""
        cid = cid or str(uuid.uuid4())
        done = venue.run("play", self.show, "--cid", cid, *words, stdin=ONE_TICK)
        self.assertEqual((0, b""), (done.returncode, done.stderr), words)
        return venue.office.came(), venue.stage.came()

    def night(self, kept, *options, **network):
        """A network, and a night in it whose start was told."""
        venue = Venue(kept, **network)
        return venue, Night(kept, venue, self.show, *options)

    def assertFrom(self, night, *lines):
        """The start says by which cards and addresses the night sends."""
        begins = ("from ", "other cards: ", "no route ")
        self.assertEqual(list(lines), [line for line in night.start if line.startswith(begins)])

    @contextmanager
    def soon(self, night, *texts):
        """What happens inside is told within two seconds, in one of these words."""
        before = time.monotonic()
        yield
        night.wait_for_message(*texts)
        self.waits.append(took(before))
        in_time(self.waits[-1], SOON, texts[0])


class Ways(CardsTest):
    """By which card packets leave: each target, in one packet of each universe."""

    def test_ways(self):
        """Multicast by the default route, or by the card that is named; unicast by the system's
        route; and what is named for a universe in place of what is named for all."""
        self.side_by_side(
            self.default_route,
            self.named_card,
            self.address_of_a_card,
            self.both_nodes,
            self.any_route,
            self.one_elsewhere,
            self.several_of_one,
            self.each_its_own,
            self.three_at_one_network,
            self.plain_packet,
            self.named_packet,
        )

    def default_route(self, kept):
        office, stage = self.arrivals(Venue(kept), "--to", MULTICAST)
        self.assertEqual((groups(1, 2), []), (hosts(office), stage))
        self.assertEqual({EVERYDAY}, {each.source for each in office})

    def named_card(self, kept, name="lit"):
        office, stage = self.arrivals(Venue(kept), "--to", MULTICAST, "--interface", name)
        self.assertEqual(([], groups(1, 2)), (office, hosts(stage)))
        self.assertEqual({LIT}, {each.source for each in stage})

    def address_of_a_card(self, kept):
        self.named_card(kept, LIT)

    def both_nodes(self, kept):
        office, stage = self.arrivals(Venue(kept), "--to", OFFICE, "--to", STAGE)
        self.assertEqual([{1, 2}] * 2, [universes(office), universes(stage)])
        found = {(each.source, each.to) for each in office + stage}
        self.assertEqual({(EVERYDAY, OFFICE), (LIT, STAGE)}, found)

    def any_route(self, kept):
        words = ("--to", OFFICE, "--interface", "lit", "--any-route")
        office, stage = self.arrivals(Venue(kept), *words)
        self.assertEqual(({1, 2}, []), (universes(office), stage))
        self.assertEqual({(LIT, OFFICE)}, {(each.source, each.to) for each in office})

    def one_elsewhere(self, kept):
        office, stage = self.arrivals(Venue(kept), "--to", MULTICAST, "--to", f"2={STAGE}")
        self.assertEqual((groups(1), {STAGE}), (hosts(office), hosts(stage)))
        self.assertEqual(({1}, {2}), (universes(office), universes(stage)))

    def several_of_one(self, kept):
        named = (STAGE, f"1={MULTICAST}", f"1-2={STAGE}", f"1={OFFICE}")
        office, stage = self.arrivals(Venue(kept), *(f"--to={word}" for word in named))
        self.assertEqual(["239.255.0.1", OFFICE], [each.to for each in office])
        self.assertEqual((2, {1, 2}), (len(stage), universes(stage)))
        self.assertEqual(1, len({each.packet for each in [*office, stage[0]]}))

    def each_its_own(self, kept):
        words = ("--to", f"1={OFFICE}", "--to", f"2-2={STAGE}")
        office, stage = self.arrivals(Venue(kept), *words)
        self.assertEqual(({1}, {2}), (universes(office), universes(stage)))

    def three_at_one_network(self, kept):
        """Of three cards at one network each is known, by its name and by its address."""
        venue = Venue(kept)
        more = {"second": Node(kept, STAGE), "third": Node(kept, STAGE)}
        addresses = {"second": "10.101.2.11", "third": "10.101.2.12"}
        for card, node in more.items():
            venue.plug(card, node)
            node.begin()
            venue.console.ip(f"addr add {addresses[card]}/24 dev {card}", f"link set {card} up")
        wait_for(lambda: venue.is_up(4), "the further cards are up")
        for card, address in addresses.items():
            for word in (card, address):
                office, stage = self.arrivals(venue, "--to", MULTICAST, "--interface", word)
                came = more[card].came()
                self.assertEqual(([], [], groups(1, 2)), (office, stage, hosts(came)))
                self.assertEqual({address}, {each.source for each in came})

    def plain_packet(self, kept):
        """The time to live is 1 where none is named."""
        words = ("--to", MULTICAST, "--interface", "lit", "--name", "x")
        _, stage = self.arrivals(Venue(kept), *words)
        self.assertEqual({1}, {each.ttl for each in stage})

    def named_packet(self, kept):
        """It and the source's name are whole in each packet."""
        name = "Main \u00e9" + "n" * 56
        words = ("--to", MULTICAST, "--interface", "lit", "--ttl", "255", "--name", name)
        _, stage = self.arrivals(Venue(kept), *words, cid=CID)
        wanted = [packet(universe, {1: 128}, cid=CID, name=name) for universe in (1, 2)]
        self.assertEqual({255}, {each.ttl for each in stage})
        self.assertEqual(wanted, [each.packet for each in stage])


class Starts(CardsTest):
    """What a night says of cards at its start."""

    def test_start(self):
        cases = (self.card_by_word, self.default_route, self.local_route, self.several)
        others = (self.one_card, self.many_routes, self.tied_socket, self.joined_group)
        self.side_by_side(*cases, *others)

    def card_by_word(self, kept):
        """By either form of the word."""
        venue = Venue(kept)
        for word in ("lit", LIT):
            night = Night(kept, venue, self.show, "--to", MULTICAST, "--interface", word)
            self.assertFrom(night, f"from {LIT} (lit)")
            self.assertEqual((0, []), night.end())

    def default_route(self, kept):
        """Where nothing is said, the way is told, and which other card could be meant."""
        _, night = self.night(kept, "--to", MULTICAST)
        others = f"other cards: lit ({LIT}); --interface lit sends by it"
        self.assertFrom(night, f"from {EVERYDAY} (eth0), the default route", others)

    def local_route(self, kept):
        """A node's address leaves no doubt."""
        _, night = self.night(kept, "--to", STAGE)
        self.assertFrom(night, f"from {LIT} (lit), the route to 10.101.2.0/24")

    def many_routes(self, kept):
        """The route to a node is found behind a hundred others."""
        venue = Venue(kept)
        venue.console.ip(*(f"route add 10.7.{k}.0/24 dev eth0" for k in range(100)))
        night = Night(kept, venue, self.show, "--to", STAGE)
        self.assertFrom(night, f"from {LIT} (lit), the route to 10.101.2.0/24")

    def tied_socket(self, kept):
        """What goes to nodes has a socket that sends by its card alone, as the system says; with
        --any-route there is none."""
        venue = Venue(kept)
        for options, tied in (((), [f"[::ffff:{LIT}]%lit"]), (("--any-route",), [])):
            named = ("--to", STAGE, "--interface", "lit", *options)
            night = Night(kept, venue, self.show, *named)
            words = venue.console.words("ss", "-H", "-u", "-a", "-n")
            shown = subprocess.run(words, capture_output=True, text=True, check=True).stdout
            places = [line.split()[3].rpartition(":")[0] for line in shown.splitlines()]
            self.assertEqual(tied, [place for place in places if "%" in place])
            self.assertEqual((0, []), night.end())

    def several(self, kept):
        """A line of each address."""
        _, night = self.night(kept, "--to", f"1={STAGE}", "--to", f"2={OFFICE}")
        by_office = f"from {EVERYDAY} (eth0), the route to 10.101.1.0/24"
        by_stage = f"from {LIT} (lit), the route to 10.101.2.0/24"
        self.assertFrom(night, by_stage, by_office)

    def joined_group(self, kept):
        """A group that a card has joined by an address of its own is no card, and no address of
        one."""
        venue = Venue(kept)
        joined = (f"addr add {GROUP}/32 dev lit autojoin", "route add 224.0.0.0/4 dev lit")
        venue.console.ip(*joined)
        night = Night(kept, venue, self.show, "--to", MULTICAST)
        others = f"other cards: eth0 ({EVERYDAY}); --interface eth0 sends by it"
        self.assertFrom(night, f"from {LIT} (lit), the route to 224.0.0.0/4", others)

    def one_card(self, kept):
        """Where there is no other card with an address, none is told of."""
        venue = Venue(kept)
        venue.console.ip(f"addr del {LIT}/24 dev lit")
        night = Night(kept, venue, self.show, "--to", MULTICAST)
        self.assertFrom(night, f"from {EVERYDAY} (eth0), the default route")


class Watch(CardsTest):
    """A night that nobody hears says so within two seconds; nothing moves to another card."""

    NO_LINK = "no link lit: nodes get nothing; check the cable"
    DOWN = "lit is down: nodes get nothing; ip link set lit up"
    GONE = f"lit has lost {LIT}: nodes get nothing"
    NOBODY = "no answer from 10.101.2.77: nothing has that address; check the node and --to"

    def test_cases(self):
        self.side_by_side(
            self.cable_out,
            self.cable_out_of_a_node,
            self.cable_out_at_the_start,
            self.card_down,
            self.address_gone,
            self.card_gone,
            self.card_plugged_in_anew,
            self.route_changed,
            self.route_gone,
            self.any_route,
            self.no_network_yet,
            self.node_that_refuses,
            self.no_such_node,
            self.no_such_gateway,
            self.other_gateway,
            self.cable_out_of_no_node,
            self.one_of_two_cards,
            self.backup,
        )
        print(f"    told after {max(self.waits).ms:.0f} ms at most, {len(self.waits)} times")

    def lit_night(self, kept, *options):
        """A night by the card `lit`, heard on the stage."""
        venue, night = self.night(kept, "--interface", "lit", *(options or ("--to", MULTICAST)))
        venue.stage.wait()
        return venue, night

    def assertToldAgain(self, night, told):
        """A `where` tells what is wrong once more."""
        night.ask()
        night.wait_for_message(told)

    def assertStillTold(self, night, told):
        """Some looks later nothing else was told, and a `where` tells what is wrong once more."""
        time.sleep(DURING)
        night.ask()
        self.assertTrue(night.err.next().endswith(told))

    def assertDark(self, venue, night):
        """Nothing comes to the stage or to the office, whatever is typed."""
        venue.stage.came(0)
        venue.office.came(0)
        night.ask("go")
        time.sleep(DURING)
        self.assertEqual(([], []), (venue.stage.came(0), venue.office.came(0)))

    def assertLit(self, venue):
        """Light comes to the stage: the look that was commanded meanwhile."""
        levels = {each.packet[SLOT_1] for each in venue.stage.wait()}
        self.assertEqual(({128}, []), (levels, venue.office.came(0)))

    def assertLost(self, night):
        """The night ends with the number of packets that were lost."""
        status, told = night.end()
        self.assertEqual(5, status)
        self.assertRegex("\n".join(told), r"(?m)^lost [1-9]\d*$")

    def cable_out(self, kept):
        venue, night = self.lit_night(kept)
        with self.soon(night, self.NO_LINK):
            venue.stage.ip("link set port down")
        self.assertToldAgain(night, self.NO_LINK)
        self.assertDark(venue, night)
        with self.soon(night, "link lit"):
            venue.stage.ip("link set port up")
        self.assertLit(venue)
        self.assertLost(night)

    def cable_out_of_a_node(self, kept):
        """Also where packets go to its address alone, and no card is named."""
        venue, night = self.night(kept, "--to", STAGE)
        venue.stage.wait()
        with self.soon(night, self.NO_LINK):
            venue.stage.ip("link set port down")
        self.assertDark(venue, night)

    def cable_out_at_the_start(self, kept):
        venue = Venue(kept)
        venue.stage.ip("link set port down")
        night = Night(kept, venue, self.show, "--to", MULTICAST, "--interface", "lit")
        with self.soon(night, self.NO_LINK):
            pass

    def card_down(self, kept):
        venue, night = self.lit_night(kept)
        with self.soon(night, self.DOWN):
            venue.console.ip("link set lit down")
        self.assertToldAgain(night, self.DOWN)
        self.assertDark(venue, night)
        with self.soon(night, "link lit"):
            venue.console.ip("link set lit up")
        self.assertLit(venue)
        self.assertLost(night)

    def address_gone(self, kept):
        venue, night = self.lit_night(kept)
        with self.soon(night, self.GONE):
            venue.console.ip(f"addr del {LIT}/24 dev lit")
        self.assertToldAgain(night, self.GONE)
        self.assertDark(venue, night)
        with self.soon(night, f"lit has {LIT}"):
            venue.console.ip(f"addr add {LIT}/24 dev lit")
        self.assertLit(venue)
        self.assertLost(night)

    def card_gone(self, kept):
        """Also where the default route leads by another card that is there."""
        venue, night = self.lit_night(kept)
        with self.soon(night, self.GONE):
            venue.console.ip("link del lit")
        venue.office.came(0)
        night.ask("go")
        time.sleep(DURING)
        self.assertEqual([], venue.office.came(0))
        self.assertLost(night)

    def card_plugged_in_anew(self, kept):
        """It is another card to the system, and the same one to the night, which may see it while
        it is not up yet."""
        venue, night = self.lit_night(kept, "--to", STAGE)
        with self.soon(night, self.GONE):
            venue.console.ip("link del lit")
        night.ask("go")
        venue.plug("lit", venue.stage)
        venue.stage.watch_cable()
        with self.soon(night, f"lit has {LIT}", "link lit"):
            venue.console.ip(f"addr add {LIT}/24 dev lit", "link set lit up")
        self.assertLit(venue)
        self.assertLost(night)

    def route_changed(self, kept):
        """Packets to a node do not follow a route that leads by another card."""
        venue, night = self.lit_night(kept, "--to", STAGE)
        told = f"the route to {STAGE} leads by eth0: nodes get nothing; check ip route get {STAGE}"
        with self.soon(night, told):
            venue.console.ip(f"route add {STAGE}/32 via {OFFICE}")
        self.assertToldAgain(night, told)
        self.assertDark(venue, night)
        with self.soon(night, f"the route to {STAGE} leads by lit"):
            venue.console.ip(f"route del {STAGE}/32 via {OFFICE}")
        self.assertLit(venue)
        self.assertLost(night)

    def route_gone(self, kept):
        """Where a node's route is gone there is none, or the one that is left leads elsewhere."""
        venue, night = self.lit_night(kept, "--to", STAGE)
        venue.console.ip("route del default")
        told = f"no route to {STAGE}: nodes get nothing until there is one"
        with self.soon(night, told):
            venue.console.ip("route del 10.101.2.0/24 dev lit")
        self.assertDark(venue, night)
        with self.soon(night, f"the route to {STAGE} leads by lit"):
            venue.console.ip("route add 10.101.2.0/24 dev lit")
        self.assertLit(venue)

    def any_route(self, kept):
        """With --any-route they do, and nothing is told."""
        venue, night = self.lit_night(kept, "--to", STAGE, "--any-route")
        venue.console.ip(f"route add {STAGE}/32 via {OFFICE}")
        venue.office.wait()
        time.sleep(DURING)
        self.assertEqual((0, []), night.end())

    def no_network_yet(self, kept):
        """The night begins without any network, and is heard once there is one."""
        venue, night = self.night(kept, "--to", MULTICAST, has_addresses=False)
        self.assertFrom(night, f"no route to {MULTICAST}: nodes get nothing until there is one")
        night.ask("go")
        with self.soon(night, f"from {EVERYDAY} (eth0), the default route"):
            venue.give_addresses()
        self.assertEqual({128}, {each.packet[SLOT_1] for each in venue.office.wait()[-1:]})

    def node_that_refuses(self, kept):
        """A node that answers by ICMP that nobody listens costs nobody a packet."""
        venue = Venue(kept)
        venue.stage.refuse()
        night = Night(kept, venue, self.show, "--to", STAGE, "--to", OFFICE)
        night.ask("go")
        time.sleep(DURING)
        self.assertEqual((0, []), night.end())
        office, stage = venue.office.came(), venue.stage.came()
        self.assertEqual([each.packet for each in office], [each.packet for each in stage])
        self.assertEqual([], [line for line in night.out.rest() if " live " in line])

    def no_such_node(self, kept):
        """Nobody has the address that is sent to; then somebody has it."""
        venue, night = self.night(kept, "--to", "10.101.2.77")
        with self.soon(night, self.NOBODY):
            pass
        self.assertToldAgain(night, self.NOBODY)
        venue.stage.ip("addr add 10.101.2.77/24 dev port")
        night.wait_for_message("10.101.2.77 answers")
        self.assertEqual({"10.101.2.77"}, hosts(venue.stage.wait()))

    def no_such_gateway(self, kept):
        """A node is behind a gateway whose address nobody has; then somebody has it."""
        venue = Venue(kept)
        venue.console.ip("route add 10.101.9.0/24 via 10.101.2.254 dev lit")
        night = Night(kept, venue, self.show, "--to", "10.101.9.7")
        nobody = "no answer from 10.101.2.254: nothing has that address"
        with self.soon(night, f"{nobody}; check the gateway to 10.101.9.7"):
            pass
        venue.stage.ip("addr add 10.101.2.254/24 dev port")
        night.wait_for_message("10.101.2.254 answers")

    def other_gateway(self, kept):
        """The route leads by another gateway then: that it answers is told once it does."""
        venue = Venue(kept)
        venue.console.ip("route add 10.101.9.0/24 via 10.101.2.254 dev lit")
        night = Night(kept, venue, self.show, "--to", "10.101.9.7")
        nothing = "nothing has that address; check the gateway to 10.101.9.7"
        told = f"no answer from 10.101.2.{{}}: {nothing}"
        with self.soon(night, told.format(254)):
            pass
        venue.console.ip("route replace 10.101.9.0/24 via 10.101.2.253 dev lit")
        self.assertStillTold(night, told.format(253))
        venue.stage.ip("addr add 10.101.2.253/24 dev port")
        night.wait_for_message("10.101.2.253 answers")

    def cable_out_of_no_node(self, kept):
        """A link that is back says of no node that it answers."""
        venue, night = self.night(kept, "--to", "10.101.2.77")
        with self.soon(night, self.NOBODY):
            pass
        with self.soon(night, self.NO_LINK):
            venue.stage.ip("link set port down")
        with self.soon(night, "link lit"):
            venue.stage.ip("link set port up")
        self.assertStillTold(night, self.NOBODY)

    def backup(self, kept):
        """A night that follows another one watches its own card."""
        venue = Venue(kept)
        record = self.folder / "main.play"
        Night(kept, venue, self.show, "--to", OFFICE, "--record", record)
        named = ("--to", MULTICAST, "--interface", "lit")
        backup = Night(kept, venue, self.show, *named, "--follow", record, "--priority", "90")
        venue.stage.wait()
        with self.soon(backup, self.NO_LINK):
            venue.stage.ip("link set port down")
        with self.soon(backup, "link lit"):
            venue.stage.ip("link set port up")

    def one_of_two_cards(self, kept):
        """A packet is lost where one of its targets gets none; the other gets it all the same."""
        named = (f"1={STAGE}", f"1={OFFICE}", f"2={OFFICE}")
        venue, night = self.night(kept, *(f"--to={word}" for word in named))
        with self.soon(night, self.NO_LINK):
            venue.stage.ip("link set port down")
        venue.office.came(0)
        night.ask("go")
        self.assertEqual({1, 2}, universes(venue.office.wait()))
        lost = night.out.find(r"\d+ live (.*)")[1]
        self.assertRegex(lost, r"^1:x\d+ 2:(s\d+|-)$")


class Staying(CardsTest):
    """Packets leave by one card. Where the cards or the routes change in a fade, which has packets
    in each tick, the other card hears none of them."""

    # A default route leads by the office's card all the time.
    CHANGES = (
        ("link set lit down",),
        (f"addr del {LIT}/24 dev lit",),
        ("link del lit",),
        (f"route add {STAGE}/32 via {OFFICE}", f"route add 239.255.0.0/16 via {OFFICE}"),
        ("route del 10.101.2.0/24 dev lit",),
    )

    def test_staying(self):
        nodes = [self.case(self.to_a_node, lines) for lines in self.CHANGES]
        groups = [self.case(self.to_groups, lines) for lines in self.CHANGES]
        self.side_by_side(*nodes, *groups, self.cable_out, self.without_ties)

    def case(self, of_change, lines):
        def case(kept):
            of_change(kept, lines)

        case.__name__ = f"{of_change.__name__}: {lines[0]}"
        return case

    def night_in_fade(self, kept, venue, *options, **source):
        """A night in a fade, and what the stage has of it so far."""
        night = Night(kept, venue, self.show, *options, **source)
        night.ask("goto 1 in 5")
        return night, venue.stage.wait()

    def assertStays(self, venue, night):
        """Nothing comes to the office; how many packets were lost."""
        time.sleep(DURING)
        status, told = night.end()
        self.assertEqual((5, 0), (status, len(venue.office.came())))
        return int(re.search(r"(?m)^lost (\d+)$", "\n".join(told))[1])

    def to_a_node(self, kept, lines):
        """Each packet from the change on is counted as lost, and comes nowhere."""
        venue = Venue(kept)
        record = self.folder / f"{venue.console.name}.play"
        cid = str(uuid.uuid4())
        night, came = self.night_in_fade(kept, venue, "--to", STAGE, "--record", record, cid=cid)
        venue.console.ip(*lines)
        time.sleep(A_TICK)
        came += venue.stage.came(0)
        lost = self.assertStays(venue, night)
        self.assertEqual([], venue.stage.came())
        self.assertEqual(self.packet_count(venue, record, cid), len(came) + lost)

    def packet_count(self, venue, record, cid):
        """How many packets a night sends, by `play` of its record."""
        words = ("play", self.show, "--to", OFFICE, "--cid", cid, "--name", LIVE_NAME)
        done = venue.run(*words, stdin=record.read_bytes())
        self.assertEqual((0, b""), (done.returncode, done.stderr))
        return len(venue.office.came())

    def to_groups(self, kept, lines):
        """Multicast leaves by the card of its address, whatever routes there are."""
        venue = Venue(kept)
        night, _ = self.night_in_fade(kept, venue, "--to", MULTICAST, "--interface", "lit")
        venue.console.ip(*lines)
        time.sleep(DURING)
        night.end()
        self.assertEqual([], venue.office.came())

    def cable_out(self, kept):
        """Also where the system passes over the routes of a card without a link."""
        venue = Venue(kept)
        passed_over = "net.ipv4.conf.all.ignore_routes_with_linkdown=1"
        words = venue.console.words("sysctl", "-qw", passed_over)
        subprocess.run(words, check=True)
        night, _ = self.night_in_fade(kept, venue, "--to", STAGE)
        venue.stage.ip("link set port down")
        self.assertGreater(self.assertStays(venue, night), 0)


    def without_ties(self, kept):
        """Where the system ties no socket to a card, at most the packets of one tick leave by the
        other one."""
        venue = Venue(kept)
        words = venue.console.words("sysctl", "-qw", "net.ipv6.bindv6only=1")
        subprocess.run(words, check=True)
        night, _ = self.night_in_fade(kept, venue, "--to", STAGE)
        venue.console.ip("link set lit down")
        time.sleep(DURING)
        night.end()
        self.assertLess(len(venue.office.came()), 3)


class Refusals(CardsTest):
    CARDS = f"there are eth0 ({EVERYDAY}), lit ({LIT}), lo (127.0.0.1)"

    def test_refusals(self):
        """Each names what there is. Nothing is sent or made, and the status is 2."""
        self.side_by_side(
            self.refused_cards,
            self.card_down,
            self.address_without_a_network,
            self.refused_routes,
        )

    def assertRefused(self, venue, remark, *words):
        record = self.folder / f"{venue.console.name}.play"
        for job in (["play"], ["live", "--record", record]):
            done = venue.run(*job, self.show, "--cid", uuid.uuid4(), *words, stdin=ONE_TICK)
            self.assertEqual((2, b""), (done.returncode, done.stdout))
            self.assertEqual(f"words refused\n{remark}\n", done.stderr.decode())
        self.assertEqual(([], []), (venue.office.came(0), venue.stage.came()))
        self.assertFalse(record.exists())

    def refused_cards(self, kept):
        venue = Venue(kept)
        venue.console.ip(
            "link add bare type veth peer name other",
            "link set bare up",
            "link add plugged type veth peer name socket",
            "link set plugged up",
            "link set socket up",
            f"addr add {GROUP}/32 dev lit autojoin",
        )
        for word, told in (
            ("eth7", f"no card eth7: {self.CARDS}"),
            ("LIT", f"no card LIT: {self.CARDS}"),
            ("plugged", f"plugged has no address: {self.CARDS}"),
            ("bare", f"bare has no link and no address: check the cable; {self.CARDS}"),
            ("other", f"other is down: ip link set other up; {self.CARDS}"),
            (STAGE, f"no card has {STAGE}: {self.CARDS}"),
            (GROUP, f"no card has {GROUP}: {self.CARDS}"),
        ):
            self.assertRefused(venue, told, "--to", MULTICAST, "--interface", word)

    def card_down(self, kept):
        """The system tells that it has the address of a card that is down, and not which one it
        is: the card is down, and no card has no address."""
        venue = Venue(kept)
        venue.console.ip("link set lit down")
        there = f"there are eth0 ({EVERYDAY}), lo (127.0.0.1)"
        for word, told in (
            ("lit", "lit is down: ip link set lit up"),
            (LIT, f"no card that is up is known to have {LIT}: lit is down; ip link set lit up"),
        ):
            named = ("--to", MULTICAST, "--interface", word)
            self.assertRefused(venue, f"{told}; {there}", *named)
        venue.console.ip("link add bare type veth peer name other")
        told = f"no card that is up is known to have {LIT}: lit, other, bare are down"
        told += f"; ip link set NAME up; {there}"
        self.assertRefused(venue, told, "--to", MULTICAST, "--interface", LIT)

    def address_without_a_network(self, kept):
        """No route leads to a network of the address: so no file of the system names its card."""
        venue = Venue(kept)
        venue.console.ip("addr add 10.9.0.1/32 dev eth0", f"addr del {LIT}/24 dev lit")
        there = f"there are eth0 ({EVERYDAY}), lo (127.0.0.1)"
        for word, told in (
            ("lit", f"lit has no known address: {there}"),
            ("10.9.0.1", f"no card is known to have 10.9.0.1: {there}"),
        ):
            self.assertRefused(venue, told, "--to", MULTICAST, "--interface", word)

    def refused_routes(self, kept):
        """A node behind another card than the one that is named."""
        venue = Venue(kept)
        for words, node, card, named in (
            (("--to", OFFICE), OFFICE, "eth0", "lit"),
            (("--to", STAGE, "--to", f"2={OFFICE}"), OFFICE, "eth0", "lit"),
            (("--to", "192.0.2.7"), "192.0.2.7", "eth0", "lit"),
            (("--to", STAGE), STAGE, "lit", "eth0"),
        ):
            told = f"the route to {node} leads by {card}, and not by {named}:"
            told += " --any-route sends by it"
            for word in (named, LIT if named == "lit" else EVERYDAY):
                self.assertRefused(venue, told, *words, "--interface", word)
