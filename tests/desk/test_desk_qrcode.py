"""The address of a desk as a QR code, made by python3-qrcode and read by zbarimg."""

import base64
import functools
import os
import re
import shutil
import subprocess
import sys
import unittest

from browser import CHROMIUM, MISSING, Browser
from desks import Page
from doors import DoorTest
from tooling import TOOLS, wait_for
from wire import terminal

# Of the two modules of a letter, the upper one and the lower one, which are light.
LETTERS = {"\u2588": "11", "\u2580": "10", "\u2584": "01", " ": "00"}
# Pixels along the side of a module.
SIDE = 6


@functools.cache
def interpreter():
    """A Python that has python3-qrcode, if there is one: a package of the system is for its own."""
    for python in (sys.executable, "/usr/bin/python3"):
        if shutil.which(python):
            asked = subprocess.run([python, "-c", "import qrcode"], capture_output=True)
            if asked.returncode == 0:
                return python
    return None


@unittest.skipUnless(interpreter(), "no Python here has python3-qrcode")
@unittest.skipUnless(shutil.which("zbarimg"), "no zbarimg (zbar-tools) is on PATH")
class QrCode(DoorTest):
    def decode(self, name, picture):
        """What a reader finds in a picture."""
        path = self.file(name, picture)
        words = ["zbarimg", "--quiet", "--raw", "-Sdisable", "-Sqrcode.enable", path]
        return subprocess.run(words, capture_output=True, text=True).stdout.strip()

    def desk(self, out):
        """A desk of that Python, whose standard output is this."""
        words = (self.show, "--to", self.to, "--cid", self.cid, "--listen", "127.0.0.1:0")
        process = subprocess.Popen(
            [interpreter(), TOOLS / "desk", *map(str, words)], stdout=out, stderr=subprocess.DEVNULL
        )
        self.addCleanup(process.wait)
        self.addCleanup(process.terminate)

    def test_terminal(self):
        """The letters in a dark terminal are the code of the door's address."""
        ours, theirs = terminal(self)
        self.addCleanup(os.close, ours)
        self.desk(theirs)
        os.close(theirs)
        text = b""

        def rows():
            nonlocal text
            text += os.read(ours, 65_536)
            lines = [line for line in text.decode().split("\r\n")[:-1] if line]
            code = [line for line in lines if set(line) <= set(LETTERS)]
            is_whole = code and len(code) == (len(code[0]) + 1) // 2
            return code if is_whole else None

        code = wait_for(rows, "the code")
        address = re.search(rb"desk: (http://[\d.:]+/) by a PIN", text)[1].decode()
        lines = []
        for row in code:
            for half in (0, 1):
                line = "".join("01"[LETTERS[letter][half] == "0"] * SIDE for letter in row)
                lines += [" ".join(line)] * SIDE
        size = f"P1\n{len(code[0]) * SIDE} {len(lines)}\n"
        picture = size + "\n".join(lines) + "\n"
        self.assertEqual(address, self.decode("code.pbm", picture.encode()))

    @unittest.skipUnless(CHROMIUM, MISSING)
    def test_page(self):
        """So is the picture on this machine's own page, also on a screen that is light."""
        reader, writer = os.pipe()
        self.desk(writer)
        os.close(writer)
        with os.fdopen(reader) as lines:
            here = lines.readline().strip().removeprefix("desk: ")
            address = re.match(r"desk: (\S+) by a PIN", lines.readline())[1]
            browser = Browser(self)
            page = browser.open_page(here)
            Page(self, here).wait(placed=True)
            page.wait("document.getElementById('modules').getAttribute('d') !== null")
            page.value("document.querySelector('[data-to=more]').click()")
            for theme in ("dark", "light"):
                page.value(f"document.querySelector('[data-theme-is={theme}]').click()")
                page.wait(f"document.documentElement.dataset.theme === '{theme}'")
                shot = page.call("Page.captureScreenshot", format="png")["data"]
                self.assertEqual(address, self.decode(f"{theme}.png", base64.b64decode(shot)))


if __name__ == "__main__":
    unittest.main()
