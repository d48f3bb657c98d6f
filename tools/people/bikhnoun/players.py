"""What plays many times side by side: the processors that this may use, or the workers of a cluster."""
from concurrent.futures import ThreadPoolExecutor
from contextlib import contextmanager
import os
import sys

from .telling import Stopped


@contextmanager
def players(scheduler, play):
    """What plays by this function, and what makes a text known to all of it. A scheduler is the address of Dask's. Its workers get the
    function itself, since they have nothing of this repository.
    """
    if scheduler is None:
        with ThreadPoolExecutor(len(os.sched_getaffinity(0))) as pool:
            try:
                yield pool, lambda text: text
            except BaseException:
                # Nothing else is begun.
                pool.shutdown(wait=False, cancel_futures=True)
                raise
        return
    try:
        from cloudpickle import register_pickle_by_value
        from distributed import Client
    except ImportError:
        raise Stopped(f"--scheduler wants Dask, which {sys.executable} does not have (Debian: python3-distributed, for /usr/bin/python3)", 1) from None
    register_pickle_by_value(sys.modules[play.__module__])
    try:
        client = Client(scheduler, timeout=10)
    except (OSError, ValueError) as error:
        raise Stopped(f"no Dask scheduler answers at {scheduler}: {error}", 1) from None
    with client, client.get_executor(pure=False) as pool:
        yield pool, lambda text: client.scatter(text, broadcast=True)
