"""The moments of a cache as lines of text."""


def letters(report, moments):
    """A letter for each group that holds lines or has an access: a, b, and so on in order of creation."""
    busy = {gid for moment in moments for gid in moment.lines}
    busy |= {group["gid"] for group in report["groups"] if group["accesses"]}
    paths = {group["gid"]: group["path"] for group in report["groups"]}
    return {gid: (chr(ord("a") + number) if number < 26 else "+", paths[gid]) for number, gid in enumerate(sorted(busy))}


def way_text(ways, names):
    """For each way, the highest first, the letter of the group that holds most of it, in capitals where it holds all that is held."""
    shown = []
    for way in reversed(ways):
        if not way:
            shown.append(".")
            continue
        gid, _ = max(way.items(), key=lambda one: (one[1], -one[0]))
        shown.append(names[gid][0].upper() if len(way) == 1 else names[gid][0])
    return "".join(shown)


def lines(report, moments):
    """The table: a line for each group that has a letter, and then one for each moment."""
    names = letters(report, moments)
    yield from (f"{letter} {path}" for letter, path in names.values())
    heads = [f"{letter:>7} mask" + " " * 5 for letter, _ in names.values()]
    width = max(len(moments[0].ways), 4) if moments else 4
    yield f"{'entry':>7}" + "".join(heads) + f"{'ways':{width}}  command"
    for moment in moments:
        cells = [f"{moment.lines[gid]:7} {mask_text(moment.masks.get(gid)):9}" for gid in names]
        yield f"{moment.at:7}{''.join(cells)}{way_text(moment.ways, names):{width}}  {moment.command}".rstrip()


def mask_text(mask):
    """A mask in hexadecimal, where it is known."""
    return "-" if mask is None else f"{mask:x}"
