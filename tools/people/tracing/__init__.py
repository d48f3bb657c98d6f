"""Makes scripts of the memory traces of programs."""

# The bytes of a line of memory, and past the greatest address of an access.
LINE_BYTES = 64
ADDRESS_END = 2**48


class BadTrace(Exception):
    """What is read is no trace, or says what no script can."""
