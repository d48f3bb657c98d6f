"""The page in a browser, as whoever uses it has it."""
import json

from .browser import CONTROL, Wrong

PLAYED = "document.getElementById('status').textContent.startsWith('Played')"
INVALID = "document.getElementById('status').textContent.includes('invalid')"
# Selects what stands in the script, and writes a text over it, as keys would.
SELECT = "(() => {{ const area = document.getElementById('script'); area.focus(); area.setSelectionRange({}, {}); }})()"
CHOOSE = "(() => {{ const list = document.getElementById('example'); list.value = {}; list.dispatchEvent(new Event('change')); }})()"


class Page:
    """The page, and what one does with it."""

    def __init__(self, browser, address):
        self.browser, self.address = browser, address

    def text(self, name):
        """The text of an element."""
        return self.browser.value(f"document.getElementById('{name}').textContent")

    def html(self, name):
        return self.browser.value(f"document.getElementById('{name}').innerHTML")

    def forget(self):
        """Empties the status, so that the next one can be waited for."""
        self.browser.value("document.getElementById('status').textContent = ''")

    def done(self, seconds=60):
        """Waits for a play, or for the word that there is none."""
        self.browser.wait(f"({PLAYED} || {INVALID}) && !document.body.hasAttribute('aria-busy')", seconds)

    def open(self, address=None):
        self.browser.open(address or self.address)
        self.browser.wait("document.readyState === 'complete' && document.getElementById('status')")
        self.done()

    def choose(self, example, seconds=120):
        """Chooses an example, and waits until it is played."""
        self.forget()
        self.browser.value(CHOOSE.format(json.dumps(example)))
        self.done(seconds)

    def script(self):
        return self.browser.value("document.getElementById('script').value")

    def write_over(self, start, end, text):
        self.browser.value(SELECT.format(start, end))
        self.browser.type(text)

    def write(self, script):
        """Writes another script."""
        self.write_over(0, len(self.script()), script)

    def play(self, seconds=60):
        """Plays the script by the keyboard."""
        self.forget()
        self.browser.value("document.getElementById('script').focus()")
        self.browser.key("Enter", CONTROL)
        self.done(seconds)

    def click(self, name):
        self.browser.value(f"document.getElementById('{name}').click()")

    def slide(self, key):
        """Presses a key on the slider, and waits until the page is drawn."""
        self.browser.value("document.getElementById('slider').focus()")
        self.browser.key(key)
        self.drawn()

    def drawn(self):
        self.browser.value("new Promise((done) => requestAnimationFrame(() => requestAnimationFrame(done)))")

    def position(self):
        return int(self.browser.value("document.getElementById('slider').value"))

    def wants(self, what, seen, wanted):
        """Stops where something is not as it has to be."""
        if seen != wanted:
            raise Wrong(f"{what}: {seen!r}, and not {wanted!r}")
