"""Scripts with mistakes in them: those of the examples, each changed in one to three places by chance, the same ones each time."""
import random
import re

WORDS = (
    "machine tasks phase order thread mkdir rmdir read list write flush clflush tick access sweep touch # #x -p / // /a/ a /a/../b . "
    "/p0 /p0/ /info /p0/schemata /schemata /p0/mode /mon_groups/schemata L3:0=3 0 00 1 2 3 4 7 8 9 63 64 65 128 255 256 257 4096 65536 "
    "131072 4000000 4294967295 4294967296 281474976710655 281474976710656 18446744073709551615 18446744073709551616 0x 0X1 0x1f40 "
    "0xffffffffffff 0x1000000000000 0x1g 1f40 -1 +1 1.5 1e3 64K 1_000 1,2 1-2 2-1 0-1 1- -2 1-4097 5-4101 cpus=2 cpus=0 cpus=64 cpus=65 "
    "sets=3 sets=0 sets=1 sets=65536 sets=131072 ways=0 ways=1 ways=32 ways=33 ways=x ways= =4 ways domains=8 domains=9 slices=2 slices=3 "
    "slices=16 classes=0 classes=64 classes=65 rmids=256 rmids=257 min=0 min=4 shareable=ff shareable=0x3 shareable=0X3 shareable=g "
    "shareable=100 threshold=64 threshold=99999999999 sparse=1 sparse=2 sparse=yes cores=2 \\n \\\\ \\t a\\ \\x"
).split()
BYTES = (*map(chr, range(0x20, 0x7F)), "\t", "\n", "\r", "\r\n", "\0", "\x0b", "\x0c", "\x1c", "\x7f", "\x80", "\x85", "\xa0", "\xef\xbb\xbf", "\xff")
LONG = ("/" + "n" * 255, "/" + "n" * 256, "/" + "n/" * 1023 + "n", "/" + "n/" * 1024 + "n", "/" + "n" * 2048)


def change_byte(dice, text):
    at = dice.randrange(len(text) + 1)
    return text[:at] + dice.choice(BYTES) + text[at + dice.randrange(2) :]


def change_word(dice, text):
    places = list(re.finditer(r"[^ \t\n]+", text)) or [re.match("", text)]
    place = dice.choice(places)
    word = dice.choice(WORDS) if dice.randrange(8) else dice.choice(LONG)
    kept = dice.choice(("", "", place.group() + " "))
    return text[: place.start()] + kept + word + text[place.end() :]


def change_line(dice, text):
    lines = text.split("\n")
    at, other = dice.randrange(len(lines)), dice.randrange(len(lines))
    change = dice.randrange(4)
    if change == 0:
        lines.insert(other, lines[at])
    elif change == 1:
        del lines[at]
    elif change == 2:
        lines[at], lines[other] = lines[other], lines[at]
    else:
        lines.insert(at, " ".join(dice.choice(WORDS) for _ in range(dice.randrange(1, 5))))
    return "\n".join(lines)


def change_text(dice, text):
    """A written text that is very long, or many lines of one kind, so that a limit of the script is met."""
    kinds = {"phase\n": 66, "thread\n": 18, "write /schemata " + "a" * 4096 + dice.choice("\na"): 1}
    line = dice.choice(list(kinds))
    lines = text.split("\n")
    lines.insert(dice.randrange(len(lines) + 1), (line * kinds[line]).rstrip("\n"))
    return "\n".join(lines)


CHANGES = (change_byte, change_byte, change_word, change_word, change_word, change_line, change_text)


def mutants(texts, count, begin=40):
    """So many scripts as bytes, the same ones each time."""
    dice = random.Random(begin)
    for _ in range(count):
        text = dice.choice(texts)
        for _ in range(dice.randrange(1, 4)):
            text = dice.choice(CHANGES)(dice, text)
        yield text.encode("latin-1")


# Lines of each weight that there is, on 32 slices with 256 RMIDs.
MACHINE = "machine domains=8 slices=4 sets=4 ways=4 rmids=256\ntasks 1\nphase\nthread\n"
WEIGHTS = {
    "tick": 8225, "rmdir /x": 8225, "read /mon_data/mon_L3_07/llc_occupancy": 8225, "read /x/mon_groups/mode/mon_data/mon_L3_00/llc_occupancy": 8225,
    "write /x/mode shareable": 65, "write /schemata L3:0=1": 33, "flush": 33, "flush 7": 33, "clflush 64": 33, "clflush /x 0": 33,
    "touch /x 0 1 0": 2, "access 1 0 0": 1, "mkdir /": 1, "list /": 1, "write /x/tasks 1": 1, "write /info/schemata": 1,
    "write /mon_groups/mode": 1, "read /mon_data/mon_L3_08/llc_occupancy": 1,
}


def weighed():
    """Scripts at the limit of the weight, and one past it: ticks, such a line, and a sweep for the rest."""
    for line, weight in WEIGHTS.items():
        ticks = 485
        rest = 4_000_000 - ticks * 8225 - weight
        for more in (0, 1):
            yield (MACHINE + "tick\n" * ticks + f"{line}\nsweep 1 0 0 {rest + more} 0\n").encode("ascii")
