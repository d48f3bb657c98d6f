"""How a fault or a remark is shown: where it is, the line with a caret below it, what is wrong, and what to do."""

WIDTH = 100


def printable(line):
    """A line as a terminal can show it, each byte in one column."""
    return "".join(byte if " " <= byte <= "~" else " " if byte == "\t" else "?" for byte in line)


def with_caret(line, start, width):
    """The line and the carets below it; of a long line only what stands around them."""
    first = max(0, start - WIDTH // 2) if len(line) > WIDTH else 0
    shown = printable(line[first : first + WIDTH])
    carets = min(width, max(1, WIDTH - (start - first)))
    return f"    {shown}\n    {' ' * (start - first)}{'^' * carets}"


def place(file, line, start):
    """Where something is, as compilers write it. Line 0 is the script as a whole."""
    return f"{file}:{line}:{start + 1}" if line else file


def show(file, line, text, start, width, what, because, hint):
    """A whole paragraph."""
    parts = [f"{place(file, line, start)}: {what}"]
    if text:
        parts.append(with_caret(text, start, width))
    parts.append(f"  {because}")
    if hint:
        parts.append(f"  hint: {hint}")
    return "\n".join(parts)


def show_fault(file, fault):
    """Why a script is refused."""
    why = fault.why
    return show(file, fault.line, fault.text, why.start, why.width, why.what, why.because, why.hint)


def marked(lines, remark):
    """The line that a remark is about, and where in it its word begins and how wide that is."""
    text = lines[remark.line - 1] if remark.line else ""
    start = text.find(remark.word) if remark.word else len(text) - len(text.lstrip(" \t"))
    width = len(remark.word) if remark.word else len(text.split(" ")[0])
    return text, max(start, 0), width


def show_remark(file, lines, remark):
    """What is likely a mistake in a valid script."""
    return show(file, remark.line, *marked(lines, remark), "remark", remark.because, remark.hint)
