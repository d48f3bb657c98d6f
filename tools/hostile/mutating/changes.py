"""What is changed in a script: some bytes, words or lines, or its end."""
import random

FLAGS = ("--quiet", "--journal", "--json", "--windows")

# What a word is replaced by: numbers at limits, and words of other lines.
WORDS = (
    "0 1 2 3 7 8 15 16 17 31 32 33 63 64 65 255 256 257 4095 4096 65535 65536 65537 1048576 4000000 4000001 16777216 4294967295 "
    "4294967296 281474976710655 281474976710656 9223372036854775808 18446744073709551615 18446744073709551616 -1 0x 0x0 0xffffffffffffffff "
    "machine tasks phase order thread mkdir rmdir read write list flush clflush tick access sweep touch # / // /. /.. /mon_groups /info "
    "/schemata /mode /tasks /cpus /cpus_list /size L3:0=f L3:0=1 L3: shareable exclusive pseudo-locksetup pseudo-locked "
    "domains=8 sets=65536 ways=32 classes=64 rmids=256 cpus=64 min=2 shareable=1 threshold=64 slices=16 sparse=1"
).encode().split()


def changed_bytes(rng, data, _):
    """One byte is replaced, left out, put in or one bit of it turned."""
    at = rng.randrange(len(data) + 1)
    byte = bytes([rng.choice((rng.randrange(256), rng.choice(b"\0\t\n\r #/:;=,\\019fx~\x7f\xff")))])
    turned = bytes([data[at] ^ 1 << rng.randrange(8)]) if at < len(data) else b""
    kept = rng.choice((at, at + 1))
    return data[:at] + rng.choice((b"", byte, byte * rng.choice((1, 2, 300)), turned)) + data[kept:]


def changed_words(rng, data, others):
    """One word of a line is replaced, left out, doubled or changed with another."""
    lines = data.split(b"\n")
    at = rng.randrange(len(lines))
    words = lines[at].split(b" ")
    one, other = rng.randrange(len(words)), rng.randrange(len(words))
    how = rng.randrange(5)
    if how == 0:
        words[one] = rng.choice(WORDS)
    elif how == 1:
        del words[one]
    elif how == 2:
        words.insert(other, words[one])
    elif how == 3:
        words[one], words[other] = words[other], words[one]
    else:
        words[one] = rng.choice(rng.choice(others).split())
    lines[at] = b" ".join(words)
    return b"\n".join(lines)


def changed_lines(rng, data, others):
    """Some lines are left out, doubled, moved, or taken from another script."""
    lines = data.split(b"\n")
    one, other = rng.randrange(len(lines)), rng.randrange(len(lines))
    some = lines[one:one + rng.randint(1, 4)]
    how = rng.randrange(4)
    if how == 0:
        del lines[one:one + len(some)]
    elif how == 1:
        lines[other:other] = some * rng.choice((1, 1, 2, 50))
    elif how == 2:
        lines[one], lines[other] = lines[other], lines[one]
    else:
        theirs = rng.choice(others).split(b"\n")
        start = rng.randrange(len(theirs))
        lines[one:one] = theirs[start:start + rng.randint(1, 6)]
    return b"\n".join(lines)


CHANGES = (changed_bytes, changed_words, changed_words, changed_lines, changed_lines)


def mutant_of(number, scripts):
    """The flags and the script of a number."""
    rng = random.Random(number)
    data = rng.choice(scripts)
    for _ in range(rng.choice((1, 1, 1, 2, 3, 6))):
        data = rng.choice(CHANGES)(rng, data, scripts)
    if rng.random() < 0.05:
        data = data[:rng.randrange(len(data) + 1)]
    return [flag for flag in FLAGS if rng.random() < 0.3], data
