"""The lines of a page that are too long to be compared by eye."""
import re

from . import text_of

MOST = 120
# A line that no blank can break below that length: the row of a table, a heading, or a link alone with what marks it.
UNBROKEN = re.compile(r"\||#|\s*(?:[-*>]\s+|\d+\.\s+)?!?\[[^\]]*\]\(\S+\)\S*$|\s*\S+$")


def long_lines(page):
    """The numbers of the lines of more than 120 characters that could be broken. Blocks of code stay as they are."""
    in_code = False
    for number, line in enumerate(text_of(page).splitlines(), 1):
        if line.startswith("```"):
            in_code = not in_code
        elif not in_code and len(line) > MOST and not UNBROKEN.match(line):
            yield number
