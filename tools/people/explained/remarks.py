"""What is likely a mistake in a valid script, by its lines alone."""
from dataclasses import dataclass

from .lines import words_of


@dataclass(frozen=True)
class Remark:
    """A line, the word of it that is meant or none, what it does, and what may have been meant."""

    line: int
    word: str
    because: str
    hint: str = ""


def of_orders(script):
    """Threads that do not run beside each other, and order numbers that do nothing."""
    for phase in script.phases:
        busy = [thread for thread in phase.threads if thread.length]
        if phase.order is None and len(busy) > 1:
            because = f"{len(busy)} threads without an order: `step` plays them one after the other"
            yield Remark(phase.line, "", because, "an order line says who takes the next step; `run` lets them race")
        numbers = [thread.number for thread in phase.threads]
        strange = sorted(set(phase.order or ()) - set(numbers))
        if strange:
            named = f"its threads are {numbers[0]} to {numbers[-1]}" if numbers else "it has no thread"
            because = f"the order names {', '.join(map(str, strange[:6]))}, and the phase has no such thread: that does nothing"
            yield Remark(phase.order_line, str(strange[0]), because, f"threads are numbered through the whole script: {named}")


def of_emptiness(script):
    """Scripts, phases and threads in which nothing happens."""
    if not script.phases:
        yield Remark(0, "", "the script has no phase: nothing is played", "`phase`, `thread`, and then the ops")
    for phase in script.phases:
        if not phase.threads:
            yield Remark(phase.line, "", "a phase without a thread: nothing is played in it", "`thread` opens one")
        for thread in phase.threads:
            if not thread.length:
                yield Remark(thread.line, "", f"thread {thread.number} has no ops")


def of_texts(script, lines):
    """Written texts with something in them that looks like a shell's, and paths of a machine."""
    for at in written_lines(script):
        words = words_of(lines[at - 1])
        path = words[1].text if len(words) > 1 else ""
        if path.startswith("/sys/fs/resctrl"):
            yield Remark(at, path, "no such path is there", f"paths begin at the tree's root: {path[15:] or '/'}")
        if words[0].text == "write" and len(words) > 1:
            yield from of_text(lines[at - 1], at, lines[at - 1][words[1].start + len(path) + 1 :])


def of_text(line, at, text):
    """A written text."""
    if '"' in text or "'" in text:
        mark = '"' if '"' in text else "'"
        yield Remark(at, mark, f"the {mark} is a part of the text", "a text stands without quotation marks, to the end of the line")
    if " #" in text or text.startswith("#"):
        yield Remark(at, "#", "the # and what follows is a part of the text", "a comment has a line of its own")
    if text.endswith("\\n"):
        hint = "a script's line stands for `echo TEXT > PATH`: the final newline is not written"
        yield Remark(at, text.split(" ")[-1], "the text ends with a newline, which opens one more line", hint)


def written_lines(script):
    """The lines of all ops, rising."""
    return [at for thread in script.threads() for at in thread.ops.values()]


def of_lines(script, lines):
    """All remarks that need no report."""
    return [*of_emptiness(script), *of_orders(script), *of_texts(script, lines)]
