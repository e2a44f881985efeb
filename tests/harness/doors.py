"""What the tests of a desk's doors share: a browser's side, with a PIN and without."""

import http.client
import re

from desks import DeskTest
from tooling import PATIENCE


class Door:
    """The door of a desk for others: its address, its PINs, and requests of nobody."""

    def __init__(self, line):
        pattern = r"desk: (https?://([\d.]+):(\d+))/ by a PIN: (\d{6}) plays, (\d{6}) watches$"
        self.origin, self.host, self.port, self.play, self.watch = re.match(pattern, line).groups()
        self.cookie = None

    def request(self, method, path, body=None, tls=None, **headers):
        """The status, the answer and its headers."""
        kind = http.client.HTTPConnection if tls is None else http.client.HTTPSConnection
        more = {} if tls is None else {"context": tls}
        connection = kind(self.host, int(self.port), timeout=PATIENCE, **more)
        sent = {"Origin": self.origin, "Cookie": self.cookie, **headers}
        sent = {name.replace("_", "-"): value for name, value in sent.items() if value is not None}
        try:
            connection.request(method, path, body, sent)
            answer = connection.getresponse()
            return answer.status, answer.read().decode(), answer.headers
        finally:
            connection.close()

    def enter(self, pin, **headers):
        """Shows a PIN: the status and what is said; a session is kept."""
        status, told, headers = self.request("POST", "/session", pin, **headers)
        if status == 204:
            self.cookie = headers["Set-Cookie"].partition(";")[0]
        return status, told

    def press(self, page, line, **headers):
        """Presses as a page that shows what `page` shows; the status."""
        sent = {"Desk-Time": page.desk_time(), "Desk-State": page.state["number"], **headers}
        return self.request("POST", "/command", line, **sent)[0]


class DoorTest(DeskTest):
    def open_desk(self, *options, address="127.0.0.1:0", **kept):
        desk, page = super().open_desk("--listen", address, *options, **kept)
        return desk, page, Door(desk.out.next())
