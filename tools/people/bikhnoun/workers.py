"""A program that ends with whoever started it."""
from contextlib import contextmanager
import signal
import subprocess


@contextmanager
def held(*numbers):
    """Signals that come within the block come after it. One that is ignored stays so, here and in what is started."""
    came = []
    heard = [number for number in numbers if signal.getsignal(number) is not signal.SIG_IGN]
    before = {number: signal.signal(number, lambda number, frame: came.append(number)) for number in heard}
    try:
        yield
    finally:
        for number, handler in before.items():
            signal.signal(number, handler)
    for number in came:
        signal.raise_signal(number)


@contextmanager
def started(command, **streams):
    """A program that has ended when the block is left, whatever ends that: also Control+C just while it starts."""
    worker = None
    try:
        with held(signal.SIGINT, signal.SIGTERM):
            worker = subprocess.Popen(command, **streams)
        yield worker
    finally:
        if worker:
            worker.kill()
            worker.wait()
