"""`tools/desk`: who may play, and what a page may load."""

import socket
import time

from desks import DeskTest

from cueplayer_tools.desk.server import FILES


class Guards(DeskTest):
    def test_requests_of_others(self):
        """Without the address's word, under another name, or of another page: refused."""
        _, page = self.open_desk()
        port = page.host.split(":")[1]
        go = ("POST", "command", b"go")
        cases = (
            (404, {"path": "/"}),
            (404, {"path": "/" + "A" * 32 + "/"}),
            (404, {"path": "//"}),
            (404, {"path": page.path + "%FF/"}),
            (404, {"path": page.path + "other/"}),
            (403, {"Host": f"stage.example:{port}"}),
            (403, {"Host": "127.0.0.1"}),
            (403, {"Host": None}),
            (403, {"Origin": "http://stage.example"}),
            (403, {"Origin": "null"}),
            (403, {"Origin": f"http://127.0.0.1:{int(port) ^ 1}"}),
            (403, {"Origin": None}),
            (403, {"Sec_Fetch_Site": "cross-site"}),
            (403, {"Sec_Fetch_Site": "same-site"}),
        )
        for status, changed in cases:
            with self.subTest(changed):
                path = changed.pop("path", None)
                self.assertEqual(status, page.request(*go, path=path, **changed)[0])
        self.assertEqual(413, page.request("POST", "command", b"go".ljust(201))[0])
        self.assertEqual(413, page.request("POST", "command", None)[0])
        for name, status in (("", 200), ("desk.js", 200), ("../desk.js", 404), ("other", 404)):
            self.assertEqual(status, page.request("GET", name)[0])
            self.assertEqual(403, page.request("GET", name, Origin="http://stage.example")[0])
        self.assertEqual(501, page.request("PUT", "command", b"go")[0])
        local = {"Host": f"localhost:{port}", "Origin": f"http://localhost:{port}"}
        self.assertEqual(204, page.request(*go, **local)[0])
        page.wait(current="1")
        time.sleep(0.2)
        self.assertEqual("1", page.state["current"])

    def test_headers(self):
        """Nothing is loaded from elsewhere, framed, kept or told to others."""
        _, page = self.open_desk()
        for name in FILES:
            status, content, headers = page.request("GET", name)
            self.assertEqual((200, "no-store"), (status, headers["Cache-Control"]))
            self.assertIn("default-src 'none'", headers["Content-Security-Policy"])
            self.assertIn("frame-ancestors 'none'", headers["Content-Security-Policy"])
            self.assertNotIn("unsafe", headers["Content-Security-Policy"])
            self.assertEqual("no-referrer", headers["Referrer-Policy"])
            self.assertIsNone(headers["Access-Control-Allow-Origin"])
            elsewhere = r"https?://|url\(|@import|<style|\son\w+=|\sstyle="
            self.assertNotRegex(content.decode(), elsewhere)

    def test_only_this_machine(self):
        _, page = self.open_desk()
        port = int(page.host.split(":")[1])
        with socket.socket() as other:
            with self.assertRaises(ConnectionRefusedError):
                other.connect(("127.0.0.2", port))
