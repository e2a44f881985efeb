"""How a desk is reached from elsewhere: the options, and what is told of them at the start."""

import argparse
import re
import ssl
import sys
from collections.abc import Callable

from cueplayer_tools.addresses import Address, listening_address, port_number
from cueplayer_tools.desk.doors import PinDoor
from cueplayer_tools.desk.picture import modules_of, text_of
from cueplayer_tools.desk.pin_file import PinFile, pin_file
from cueplayer_tools.desk.pins import Pins, Role
from cueplayer_tools.line_protocol import Refused
from cueplayer_tools.own_addresses import foreign, is_public
from cueplayer_tools.teller import Teller

USUAL_PORT = 8090
NETWORK_NAMES = ("port", "listen", "host", "new_pins", "certificate", "key", "osc")
TRUSTED = (
    "no TLS: the network is trusted, since whoever reads it reads the PIN; "
    "--certificate and --key encrypt"
)


def page_address(word: str) -> Address:
    """`ADDR:PORT`, or `ADDR` alone with the desk's usual port."""
    return listening_address(word if ":" in word else f"{word}:{USUAL_PORT}")


def add_network(parser: argparse.ArgumentParser) -> None:
    """The options by which others reach the desk."""
    parser.add_argument(
        "--port",
        metavar="N",
        type=port_number,
        default=0,
        help="the port of the page on this machine; by default the system chooses one",
    )
    parser.add_argument(
        "--listen",
        metavar="ADDR[:PORT]",
        type=page_address,
        help=f"serve the page at this machine's own address too, by a PIN; port {USUAL_PORT}",
    )
    parser.add_argument(
        "--host",
        metavar="NAME",
        action="append",
        default=[],
        help="a name that browsers may use for that page, beside the address",
    )
    parser.add_argument(
        "--new-pins", action="store_true", help="make new PINs; by default those of the last time"
    )
    parser.add_argument("--certificate", metavar="FILE", help="TLS for that page, with --key")
    parser.add_argument("--key", metavar="FILE", help="the certificate's private key")
    parser.add_argument(
        "--osc",
        metavar="[ADDR:]PORT",
        type=listening_address,
        help="take Open Sound Control too; without ADDR on this machine alone",
    )


def add_midi(parser: argparse.ArgumentParser) -> None:
    """The options of a MIDI device."""
    parser.add_argument(
        "--midi",
        metavar="FILE",
        help="take MIDI Show Control from this raw MIDI device, as /dev/snd/midiC1D0",
    )
    parser.add_argument(
        "--midi-device",
        metavar="N",
        type=_number_up_to(111),
        default=0,
        help="the number of this device in MIDI Show Control, 0 to 111 (0)",
    )
    for name in ("go", "back"):
        parser.add_argument(
            f"--midi-{name}",
            metavar="NOTE",
            type=_number_up_to(127),
            help=f"a note that is {name.upper()}, 0 to 127; 60 is middle C",
        )


def _number_up_to(greatest: int) -> Callable[[str], int]:
    def read(word: str) -> int:
        if re.fullmatch(r"\d{1,3}", word, re.ASCII) and int(word) <= greatest:
            return int(word)
        raise argparse.ArgumentTypeError(f"not a number from 0 to {greatest}: {word!r}")

    return read


def check_network(parser: argparse.ArgumentParser, words: argparse.Namespace) -> None:
    """Refuses what cannot be served."""
    for name in ("listen", "osc"):
        address = getattr(words, name)
        if address is not None and (fault := foreign(address)):
            parser.error(f"--{name}: {fault}")
    if (words.certificate is None) != (words.key is None):
        parser.error("--certificate and --key go together")


def check_needs(parser: argparse.ArgumentParser, words: argparse.Namespace) -> None:
    """Refuses options that do nothing without another."""
    if words.midi is None and (words.midi_go, words.midi_back) != (None, None):
        parser.error("--midi-go and --midi-back need --midi")
    if words.listen is None and (words.certificate or words.host):
        parser.error("--certificate and --host need --listen")
    if words.listen is None and words.new_pins:
        parser.error("--new-pins needs --listen")


def tls_context(words: argparse.Namespace) -> ssl.SSLContext | None:
    """What encrypts the page, where that is asked for; Refused where it cannot be read."""
    if words.certificate is None:
        return None
    tls = ssl.SSLContext(ssl.PROTOCOL_TLS_SERVER)
    tls.minimum_version = ssl.TLSVersion.TLSv1_2
    try:
        # A key with a password is refused: nobody types it before a night.
        tls.load_cert_chain(words.certificate, words.key, password="")
    except OSError as fault:
        reason = fault.strerror or str(fault)
        named = f"--certificate {words.certificate}, --key {words.key}"
        raise Refused(f"{named}: {reason}") from fault
    return tls


def pin_door(words: argparse.Namespace, tell: Callable[[str], None]) -> PinDoor | None:
    """Where others come in; None where nobody does."""
    if words.listen is None:
        return None
    tls = tls_context(words)
    kept = PinFile(pin_file(words.night, words.listen[1]), tell)
    return PinDoor(words.listen, Pins(kept, words.new_pins), words.host, tls)


def warnings(words: argparse.Namespace) -> list[str]:
    """What the operator has to know of the addresses."""
    told = []
    if words.listen is not None and words.certificate is None:
        told.append(TRUSTED)
    for name in ("listen", "osc"):
        address = getattr(words, name)
        if address is not None and is_public(address[0]):
            told.append(
                f"--{name}: {address[0]} faces the public internet: anybody may try; "
                "name an address of the lighting network"
            )
    return told


def tell_door(door: PinDoor, tell: Teller) -> list[str]:
    """Tells the address and its PINs, with a picture at a terminal; the rows of the picture."""
    pins = door.pins.pins
    tell(f"desk: {door.address} by a PIN: {pins[Role.PLAY]} plays, {pins[Role.WATCH]} watches")
    modules = modules_of(door.address)
    if modules and sys.stdout.isatty():
        tell(text_of(modules))
    return modules
