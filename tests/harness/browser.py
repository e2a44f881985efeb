"""A headless Chromium, driven over its pipe: what a page does in a real browser."""

import itertools
import json
import os
import shutil
import subprocess
import tempfile
import time
from contextlib import suppress

from tooling import wait_for

from cueplayer_tools.conform.started import end

NAMES = ("chromium", "chromium-browser", "google-chrome", "google-chrome-stable")
CHROMIUM = os.environ.get("CHROMIUM") or next(filter(None, map(shutil.which, NAMES)), None)
MISSING = "no Chromium: none of " + ", ".join(NAMES) + " is on PATH, and CHROMIUM names none"


class PageHasLeft(AssertionError):
    """The page went to another address while it was asked for something."""


class Browser:
    """A browser with a profile of its own."""

    def __init__(self, test, within=()):
        """On another machine where there are words that run others there."""
        profile = tempfile.TemporaryDirectory(ignore_cleanup_errors=True)
        test.addCleanup(profile.cleanup)
        theirs_in, ours_out = os.pipe()
        ours_in, theirs_out = os.pipe()
        words = [CHROMIUM, "--headless", "--disable-gpu", "--remote-debugging-pipe"]
        words += ["--no-first-run", "--disable-background-networking"]
        # Each page is as quick as one that is looked at, also on a busy machine.
        words += ["--disable-renderer-backgrounding", "--disable-backgrounding-occluded-windows"]
        words.append(f"--user-data-dir={profile.name}")
        if os.geteuid() == 0:
            words.append("--no-sandbox")
        # The browser reads at number 3 and writes at number 4. Not every sh copies a number from
        # 10 on.
        script = f'exec "$@" 3<&{theirs_in} 4>&{theirs_out}'
        self.process = subprocess.Popen(
            [*within, "bash", "-c", script, "bash", *words],
            pass_fds=(theirs_in, theirs_out),
            stdin=subprocess.DEVNULL,
            stdout=subprocess.DEVNULL,
            stderr=subprocess.DEVNULL,
        )
        os.close(theirs_in)
        os.close(theirs_out)
        self.output = os.fdopen(ours_out, "wb", buffering=0)
        self.input = os.fdopen(ours_in, "rb")
        self.numbers = itertools.count(1)
        self.faults = []
        test.addCleanup(self.leave)

    def leave(self):
        self.output.close()
        end(self.process)
        self.input.close()

    def _message(self):
        read = bytearray()
        while (byte := self.input.read(1)) not in (b"\0", b""):
            read += byte
        if not read:
            raise AssertionError("the browser has gone")
        return json.loads(bytes(read))

    def call(self, method, session=None, **parameters):
        """Calls a method of the browser, and notes what pages complain of meanwhile."""
        number = next(self.numbers)
        asked = {"id": number, "method": method, "params": parameters}
        if session:
            asked["sessionId"] = session
        self.output.write(json.dumps(asked).encode() + b"\0")
        while True:
            message = self._message()
            if message.get("method") in ("Runtime.exceptionThrown", "Log.entryAdded"):
                self.faults.append(message["params"])
            if message.get("id") == number:
                if "navigated" in message.get("error", {}).get("message", ""):
                    raise PageHasLeft(f"{method}: {message['error']}")
                if "error" in message:
                    raise AssertionError(f"{method}: {message['error']}")
                return message["result"]

    def open_page(self, address, width=1200, height=800):
        """A page of its own at this address."""
        return BrowserPage(self, address, width, height)


class BrowserPage:
    """One open page."""

    def __init__(self, browser, address, width, height):
        self.browser = browser
        self.target = browser.call("Target.createTarget", url="about:blank")["targetId"]
        attached = browser.call("Target.attachToTarget", targetId=self.target, flatten=True)
        self.session = attached["sessionId"]
        for domain in ("Runtime", "Log", "Page"):
            self.call(f"{domain}.enable")
        self.call(
            "Emulation.setDeviceMetricsOverride",
            width=width,
            height=height,
            deviceScaleFactor=1,
            mobile=False,
        )
        self.call("Page.navigate", url=address)

    def call(self, method, **parameters):
        return self.browser.call(method, self.session, **parameters)

    def value(self, expression):
        """The value of an expression in the page."""
        answer = self.call("Runtime.evaluate", expression=expression, returnByValue=True)
        if "exceptionDetails" in answer:
            raise AssertionError(answer["exceptionDetails"])
        return answer["result"].get("value")

    def text(self, element):
        return self.value(f"document.getElementById({element!r})?.innerText ?? ''")

    def wait(self, expression):
        """Waits until an expression holds; while a page loads, or leaves for another, it has no
        value."""
        script = f"(() => {{ try {{ return {expression}; }} catch {{ return false; }} }})()"

        def holds():
            with suppress(PageHasLeft):
                return self.value(script)
            return False

        return wait_for(holds, expression)

    def press(self, key, code=None, text="", shift=False):
        """Presses and lets go a key, at wish with Shift held."""
        virtual = {" ": 32, "Enter": 13, "Backspace": 8, "ArrowRight": 39, "ArrowDown": 40}
        virtual |= {"Tab": 9, "Escape": 27, **{str(digit): 48 + digit for digit in range(10)}}
        self.call("Page.bringToFront")
        named = {"key": key, "code": code or key, "windowsVirtualKeyCode": virtual[key]}
        named["modifiers"] = 8 if shift else 0
        self.call("Input.dispatchKeyEvent", type="keyDown", text=text, **named)
        self.call("Input.dispatchKeyEvent", type="keyUp", **named)

    def click(self, expression, shift=False):
        """Clicks in the middle of an element, at wish with Shift held."""
        self.hold(expression, shift)
        self.let_go(shift)

    def middle(self, expression):
        """Where the middle of an element is, once it is in sight."""
        script = f"(() => {{ const at = ({expression}); at.scrollIntoView({{block: 'center'}});"
        script += "const box = at.getBoundingClientRect();"
        script += "return [box.x + box.width / 2, box.y + box.height / 2]; })()"
        return self.value(script)

    def hold(self, expression, shift=False):
        """Presses the mouse in the middle of an element, and holds it."""
        self.at = self.middle(expression)
        self._mouse("mousePressed", shift)

    def let_go(self, shift=False):
        """Lets go the mouse where it was pressed."""
        self._mouse("mouseReleased", shift)

    def touch(self, expression):
        """Puts a finger on the middle of an element."""
        self.put_fingers("touchStart", self.middle(expression))

    def lift(self):
        """Lifts the fingers."""
        self.put_fingers("touchEnd")

    def put_fingers(self, kind, *points, first=0):
        """Tells the page where these fingers are, in the order in which they came, the first of
        them with this number; those that leave are told with `touchEnd`, and all where none is."""
        told = [{"x": x, "y": y, "id": number} for number, (x, y) in enumerate(points, first)]
        self.call("Input.dispatchTouchEvent", type=kind, touchPoints=told)

    def draw_finger(self, start, across, along, steps=12):
        """Puts a finger there, and draws it so far to the right and down."""
        x, y = start
        self.put_fingers("touchStart", start)
        for step in range(1, steps + 1):
            self.put_fingers("touchMove", (x + across * step / steps, y + along * step / steps))
            time.sleep(0.02)

    def pan(self, start, across, along):
        """Draws a finger over the page, and lifts it."""
        self.draw_finger(start, across, along)
        self.lift()

    def tap(self, expression):
        """Taps with a finger in the middle of an element."""
        self.touch(expression)
        self.lift()

    def _mouse(self, kind, shift):
        x, y = self.at
        held = {"button": "left", "clickCount": 1, "modifiers": 8 if shift else 0}
        self.call("Input.dispatchMouseEvent", type=kind, x=x, y=y, **held)

    def names(self, role):
        """The names that a screen reader has for the parts of this role."""
        nodes = self.call("Accessibility.getFullAXTree")["nodes"]
        return [
            node.get("name", {}).get("value", "")
            for node in nodes
            if not node.get("ignored") and node.get("role", {}).get("value") == role
        ]

    def close(self):
        self.browser.call("Target.closeTarget", targetId=self.target)
