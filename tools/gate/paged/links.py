"""The links of a page, and where they lead."""
import re

from . import TOP, text_of

CODE = re.compile(r"^```.*?^```$|`[^`\n]*`", re.M | re.S)
LINK = re.compile(r"\]\(([^)\s]+)\)")
HEADING = re.compile(r"^#+ (.*)$", re.M)
ANCHOR = re.compile(r'<a name="([^"]+)">')


def anchors(page):
    """The anchors of a page, as they are made of its headings."""
    text = text_of(page)
    headings = HEADING.findall(re.sub(r"^```.*?^```$", "", text, flags=re.M | re.S))
    made = {re.sub(r"[^\w\- ]", "", heading.lower()).replace(" ", "-") for heading in headings}
    return made | set(ANCHOR.findall(text))


def broken_links(page):
    """The relative links of a page that lead to no file, or to no heading of a page."""
    for link in LINK.findall(CODE.sub("", text_of(page))):
        path, _, anchor = link.partition("#")
        there = (TOP / page).parent / path if path else TOP / page
        if "://" not in link and (not there.exists() or anchor and anchor not in anchors(there)):
            yield link
