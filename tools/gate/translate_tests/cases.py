"""Scripts that cannot be carried: what is told of each, on standard error alone, and the exit status."""
import os
import subprocess
import sys

BIKHNOUN = os.path.join(os.path.dirname(os.path.abspath(__file__)), "..", "..", "bikhnoun")
HEAD = "machine sets=1 ways=4 classes=8\ntasks 1 2\n"
EXCLUSIVE = "mkdir /a\nwrite /schemata L3CODE:0=8\\nL3DATA:0=8\nwrite /a/schemata L3DATA:0=1\\nL3CODE:0={}\nwrite /a/mode exclusive\n"
MANY = HEAD.replace("classes=8", "classes=64 domains=8") + "".join(f"mkdir /g{number}\n" for number in range(62))

# The form, the script, the exit status, and a piece of what is told.
CASES = (
    ("cdp", "machine sets=3\n", 1, "standard input: line 1: bad machine line; `bikhnoun explain --for cdp standard input` says more"),
    ("cdp", HEAD + "trace 1 0\n L 0,1\n", 1, "line 5: bad trace line"),
    ("cdp", HEAD.replace("1 2", "1-2049"), 1, "2049 tasks are 4098 with their twins; a script of resctrl_sim has 4096 at most"),
    ("cdp", HEAD.replace("1 2", "4294967295"), 1, "task 4294967295 leaves no number for its twin"),
    ("cdp", HEAD + f"mkdir /{'n' * 251}\n", 1, "line 3: after a name of 251 bytes is no room for .code; 255 at most"),
    ("cdp", HEAD + "write /schemata L3CODE:0=1\n" * 10_001, 1, "10001 commands are 20002 with the reads that tell what they do"),
    ("l2", HEAD + "phase\n", 1, "line 3: unknown word"),
    ("l3", MANY + "mkdir /a\nrmdir /a\n" * 6_000 + "sweep 1 0 0 2000000 0\n", 1, "a script of resctrl_sim weighs 4000000 at most"),
    ("cdp", HEAD + EXCLUSIVE.format(3), 0, "standard input: line 6: the twins of /a share ways, stay shareable, and have no windows"),
    ("cdp", HEAD + EXCLUSIVE.format(2), 0, ""),
    ("plain", HEAD, 2, "argument form: invalid choice: 'plain'"),
)


def shown(form, text):
    """What a call writes to both streams, and its status."""
    return subprocess.run([sys.executable, BIKHNOUN, "translate", form, "-"], input=text, capture_output=True, text=True, check=False)


def wrong_cases():
    """Each case with what is wrong, or None."""
    for number, (form, text, status, piece) in enumerate(CASES):
        done = shown(form, text)
        is_one = done.stderr.count("bikhnoun translate: ") == bool(piece)
        is_right = (done.returncode, bool(done.stdout)) == (status, status == 0) and piece in done.stderr and is_one
        yield f"case {number}", None if is_right else f"status {done.returncode}, {done.stdout[:80]!r}, {done.stderr!r}"
