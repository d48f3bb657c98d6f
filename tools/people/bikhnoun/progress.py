"""A line on the terminal for whatever takes over two seconds. Where standard error is no terminal nothing is written."""
from contextlib import contextmanager
import sys
from threading import Event, Thread
import time

FIRST, NEXT = 2.0, 0.5
CLEAR = "\r\x1b[K"


def span(seconds):
    """A time in words."""
    seconds = max(1, round(seconds))
    return f"{seconds} s" if seconds < 100 else f"{seconds // 60} min {seconds % 60:02} s"


class Progress:
    """What is done, for how long, and how long it will take from here if that can be told."""

    def __init__(self, what, stream=None):
        self.what, self.stream = what, stream or sys.stderr
        self.started = time.monotonic()
        self.last = None
        self.is_on = self.stream.isatty()

    def spent(self):
        """The seconds since it began."""
        return time.monotonic() - self.started

    def show(self, share=None, detail=""):
        """Tells which share is done, from 0 to 1 or None, where the time for that has come."""
        now, spent = time.monotonic(), self.spent()
        if not self.is_on or spent < FIRST or self.last is not None and now - self.last < NEXT:
            return
        self.last = now
        left = ""
        if share:
            left = f", {int(100 * share)} %, about {span(spent * (1 - share) / share)} left" if share < 1 else ", nearly done"
        self.stream.write(f"{CLEAR}{self.what}: {detail + ', ' if detail else ''}{span(spent)}{left}")
        self.stream.flush()

    def end(self):
        """Takes the line away, if there is one."""
        if self.last is not None:
            self.stream.write(CLEAR)
            self.stream.flush()
            self.last = None


@contextmanager
def shown(what, told=lambda spent: (None, "")):
    """The line while this Python itself works, which does not stop to write it. Of the seconds spent is told which share is done, or None,
    and a detail."""
    progress, is_done = Progress(what), Event()

    def show():
        while not is_done.wait(NEXT):
            progress.show(*told(progress.spent()))

    writer = Thread(target=show, daemon=True)
    writer.start()
    try:
        yield
    finally:
        is_done.set()
        writer.join()
        progress.end()
