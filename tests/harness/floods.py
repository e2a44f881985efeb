"""Many datagrams by few calls of the system: `sendmmsg` sends a thousand and more at once."""

import ctypes
import os
import socket
import struct

MOST_AT_ONCE = 1024  # UIO_MAXIOV
LIBC = ctypes.CDLL(None, use_errno=True)


class IoVector(ctypes.Structure):
    _fields_ = [("base", ctypes.c_char_p), ("length", ctypes.c_size_t)]


class Message(ctypes.Structure):
    _fields_ = [
        ("name", ctypes.c_char_p),
        ("name_length", ctypes.c_uint),
        ("vectors", ctypes.POINTER(IoVector)),
        ("count", ctypes.c_size_t),
        ("control", ctypes.c_void_p),
        ("control_length", ctypes.c_size_t),
        ("flags", ctypes.c_int),
    ]


class Header(ctypes.Structure):
    """A message, and how many bytes of it were sent."""

    _fields_ = [("message", Message), ("sent", ctypes.c_uint)]


class Burst:
    """Datagrams to addresses, ready to be sent as often as wanted."""

    def __init__(self, made):
        """Takes each datagram with its host and port."""
        self.kept = [
            (IoVector(datagram, len(datagram)), address_bytes(to)) for datagram, to in made
        ]
        self.headers = (Header * len(made))()
        for header, (vector, name) in zip(self.headers, self.kept):
            header.message = Message(name, len(name), ctypes.pointer(vector), 1, None, 0, 0)

    def __len__(self):
        return len(self.headers)

    def send(self, sender, first, count):
        """Sends so many of them, from one on."""
        size = ctypes.sizeof(Header)
        while count > 0:
            at_once = min(count, MOST_AT_ONCE, len(self) - first)
            place = ctypes.byref(self.headers, first * size)
            sent = LIBC.sendmmsg(sender.fileno(), place, at_once, 0)
            if sent < 0:
                raise OSError(ctypes.get_errno(), os.strerror(ctypes.get_errno()))
            first, count = (first + sent) % len(self), count - sent


def address_bytes(to):
    """struct sockaddr_in of a host and a port."""
    host, port = to
    return (
        struct.pack("=H", socket.AF_INET)
        + struct.pack("!H", port)
        + socket.inet_aton(host)
        + bytes(8)
    )
