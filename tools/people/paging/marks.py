"""The marks at the words of a script: why it is invalid, or what is likely a mistake in it, as `tools/bikhnoun explain` finds them."""
from explained import page, plays, remarks
from explained.reader import Fault, read_script


def columns(text, start, width):
    """Where a mark begins and how wide it is, in the units of a browser's strings. The reader counts bytes."""
    data = text.encode("latin-1")
    first = units(data[:start])
    return first, max(1, units(data[: start + width]) - first)


def units(data):
    """How many units of a browser's string these bytes are."""
    return len(data.decode("utf-8", "replace").encode("utf-16-le")) // 2


def mark(kind, line, text, start, width, what, because, hint):
    """A mark, as the page reads it. Line 0 is the script as a whole."""
    column, wide = columns(text, start, width)
    return {"kind": kind, "line": line, "column": column, "width": wide, "what": what, "because": because, "hint": hint}


def marks_of_fault(fault):
    """The mark at the word for which a script is invalid."""
    why = fault.why
    return [mark("fault", fault.line, fault.text, why.start, why.width, why.what, why.because, why.hint)]


def marks_of_remarks(lines, found):
    """A mark for each remark, by their lines."""
    return [
        mark("remark", one.line, *page.marked(lines, one), "remark", one.because, one.hint)
        for one in sorted(found, key=lambda one: one.line or len(lines) + 1)
    ]


def of_lines(script, lines, how):
    """The remarks that need no report. Where real threads race, an order has no meaning."""
    if how == "step":
        return remarks.of_lines(script, lines)
    return [*remarks.of_emptiness(script), *remarks.of_texts(script, lines)]


def marks_of_play(script, lines, how, report):
    """The marks of a script that was played."""
    return marks_of_remarks(lines, of_lines(script, lines, how) + plays.of_report(script, report))


def marks_of_text(data):
    """The mark of a script that may be invalid, without a play of it: none for a valid one."""
    script = read_script(data)
    return marks_of_fault(script) if isinstance(script, Fault) else []
