"""Addresses of this machine and others, as words of a command line."""

import argparse
import re
import socket

LOOPBACK = "127.0.0.1"
Address = tuple[str, int]


def _is_host(host: str) -> bool:
    numbers = host.split(".")
    return len(numbers) == 4 and all(
        re.fullmatch(r"\d{1,3}", number, re.ASCII) and int(number) <= 255 for number in numbers
    )


def port_number(word: str) -> int:
    """A UDP or TCP port; 0 has the system choose one."""
    if re.fullmatch(r"\d{1,5}", word, re.ASCII) and int(word) <= 65_535:
        return int(word)
    raise argparse.ArgumentTypeError(f"not a port: {word!r}")


def listening_address(word: str) -> Address:
    """`ADDR:PORT`, or `PORT` alone on this machine's loopback."""
    host, _, port = word.rpartition(":")
    host = host or LOOPBACK
    if not _is_host(host):
        raise argparse.ArgumentTypeError(f"not an IPv4 address: {host!r}")
    return host, port_number(port)


def sending_address(word: str, usual_port: int = 5568) -> Address:
    """`ADDR:PORT`, or `ADDR` alone with the usual port of streaming ACN."""
    host, colon, port = word.partition(":")
    if not _is_host(host):
        raise argparse.ArgumentTypeError(f"not an IPv4 address: {host!r}")
    return host, port_number(port) if colon else usual_port


def bound_socket(address: Address) -> socket.socket:
    """A socket that receives datagrams there."""
    receiver = socket.socket(socket.AF_INET, socket.SOCK_DGRAM)
    try:
        receiver.bind(address)
    except OSError:
        receiver.close()
        raise
    return receiver
