"""The pictures of the page in its document."""
from .page import Page

# An example each, with the size of the window, whether it is dark, and the entry that it shows, or None for the last one.
PICTURES = {
    "isolated_tenant": (1200, 1440, "light", None),
    "locked_buffer": (1200, 860, "dark", 140),
    "race_for_a_class": (1200, 1290, "light", None),
}
MOVE = "(() => {{ const slider = document.getElementById('slider'); slider.value = {}; slider.dispatchEvent(new Event('input')); }})()"


def draw(browser, server, folder):
    """Draws each picture as a PNG."""
    page = Page(browser, server.address)
    for name, (width, height, scheme, at) in PICTURES.items():
        browser.look(width, height, scheme)
        page.open()
        page.choose(name)
        if at is not None:
            browser.value(MOVE.format(at))
        page.drawn()
        (folder / f"page_{name}.png").write_bytes(browser.picture())
