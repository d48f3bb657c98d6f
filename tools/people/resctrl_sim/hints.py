"""Why a script is refused, in the words of `explain`, whose package stands beside this one."""


def reader():
    """What reads a script as `explain` does, or None where its package is not here."""
    try:
        from explained.reader import read_script
    except ImportError:
        return None
    return read_script


def because(script, fault):
    """What is wrong in the line that the program refuses, and a hint: one text in a list, or none where nothing more is known."""
    read = reader()
    found = read(script.encode("ascii")) if read else None
    if not hasattr(found, "why") or (found.line, found.why.what) != (fault.line, fault.what):
        return []
    return ["; ".join(filter(None, [found.why.because, found.why.hint]))]
