"""What the tests of the desk's page in a browser share: a desk and its open page, at each size."""

from browser import Browser
from desks import DeskTest, Page
from tooling import wait_for

# A desk, a tablet and a telephone, each way up, and a small telephone.
SIZES = ((1280, 800), (1024, 768), (768, 1024), (390, 844), (844, 390), (360, 640))
VIEWS = ("play", "large", "masters", "levels", "more")
# What of a view lies outside the window, or behind something else at its middle.
HIDDEN = """(() => {
  const list = document.getElementById("cues").getBoundingClientRect();
  const row = (at) => document.querySelectorAll("#cues button")[at];
  const buttons = ["current", "next", "go", "back", "blackout"];
  const parts = {
    play: [...buttons, "goto", "find", row(26), row(27)],
    large: buttons,
    masters: [...buttons, document.querySelector(".fader")],
    levels: [...buttons, "only-lit"],
    more: [...buttons, document.querySelector("[data-theme-is=dark]")],
  }["VIEW"].map((part) => (typeof part === "string" ? document.getElementById(part) : part));
  return parts.filter((part) => {
    const box = part.getBoundingClientRect();
    const [x, y] = [box.x + box.width / 2, box.y + box.height / 2];
    const seen = document.elementFromPoint(x, y);
    const isInside = box.top >= 0 && box.bottom <= innerHeight && box.right <= innerWidth;
    const isListed = !part.closest("#cues") || (y > list.top && y < list.bottom);
    return !isInside && !part.closest("#cues") || !isListed || !seen
      || !(part.contains(seen) || seen.contains(part));
  }).map((part) => part.id || part.textContent);
})()"""


def part(name):
    return f"document.getElementById('{name}')"


def cue_button(at):
    """The button of a cue, from 0."""
    return f"document.querySelectorAll('#cues button')[{at}]"


def resize(page, width, height):
    """Gives a page the window of another machine; what is not wide has fingers."""
    is_mobile = width < 1000
    page.call(
        "Emulation.setDeviceMetricsOverride",
        width=width,
        height=height,
        deviceScaleFactor=1,
        mobile=is_mobile,
    )
    page.call("Emulation.setTouchEmulationEnabled", enabled=is_mobile)
    page.wait(f"innerWidth === {width} && innerHeight === {height}")


def view(page, name):
    """Brings a page to a view."""
    page.value(f"document.querySelector('[data-to={name}]').click()")


class DeskBrowserTest(DeskTest):
    """With a desk and its page in a browser."""

    def shown_page(self, *options, **size):
        """A desk, its page in a browser, and what a page of our own hears of the same night."""
        desk, address = self.begin(*options)
        self.browser = Browser(self)
        page = self.opened_page(address, **size)
        state = Page(self, address)
        state.wait(placed=True)
        return desk, page, state

    def opened_page(self, address, **size):
        """A page of this address, once it shows the night."""
        page = self.browser.open_page(address, **size)
        page.wait("document.getElementById('next').textContent !== ''")
        page.wait("!document.body.classList.contains('is-dead')")
        return page

    def tell(self, desk, *lines):
        """Has `live` say these lines on standard error, in this order."""
        with open(f"/proc/{desk.live}/fd/2", "wb", buffering=0) as told:
            told.write("".join(line + "\n" for line in lines).encode())

    def wait_for_cue(self, page, state, cue):
        """Waits until a page shows this cue: a GO that is pressed before then is refused."""
        shown = "document.getElementById('current').textContent.split(' ')[0]"
        page.wait(f"{shown} === '{cue}'")
        return state.wait(current=cue, waiting=0)

    def wait_for_text(self, page, element, *told):
        """Waits until a part of the page says one of these."""
        found = set()

        def is_told():
            found.add(page.text(element))
            return any(words in text for words in told for text in found)

        try:
            wait_for(is_told, told)
        except AssertionError as late:
            raise AssertionError(f"{told} in {found}") from late

    def assertNoFaults(self):
        """Nothing was refused by the page's own policy, and no script failed."""
        self.assertEqual([], self.browser.faults)
