"""What the exported file holds."""
import json
import os
from pathlib import Path
import re
import shutil
import subprocess
import tempfile

from paging.plays import FLAGS

from .chosen import chosen

TOOL = os.path.join(os.path.dirname(os.path.abspath(__file__)), "..", "..", "bikhnoun")
BAD = b"machine\naccess\n"


def tool(program, *words, data=b""):
    done = subprocess.run([TOOL, "page", "--program", program, *words], input=data, stdout=subprocess.PIPE, stderr=subprocess.PIPE, check=False)
    return done.returncode, done.stdout, done.stderr.decode("utf-8")


def held(page, name):
    """What an element of the exported file holds."""
    return re.search(f'<script type="application/json" id="{name}">(.*?)</script>', page, re.S)[1]


def program_of(page):
    return re.search(r'<script type="module">\n(.*?)</script>', page, re.S)[1]


def is_program(node, text):
    """Whether node can read a module."""
    words = [node, "--input-type=module", "--check"]
    return subprocess.run(words, input=text.encode("utf-8"), stderr=subprocess.DEVNULL, check=False).returncode == 0


def of_example(program, example, file, node):
    """The exported play of one example."""
    status, *said = tool(program, "-", "--export", str(file), data=example["text"].encode("ascii"))
    if status or any(said):
        return [f"{example['name']} is not exported: status {status}, {said}"]
    page, found = file.read_text(encoding="utf-8"), []
    words = [program, "step", *FLAGS]
    report = subprocess.run(words, input=example["text"].encode("ascii"), stdout=subprocess.PIPE, check=True).stdout.decode("ascii").strip()
    if held(page, "report") != report.replace("<", "\\u003c"):
        found.append(f"the file of {example['name']} holds another report")
    if json.loads(held(page, "start"))["script"] != example["text"]:
        found.append(f"the file of {example['name']} holds another script")
    if re.search(r"<link rel=\"stylesheet|<script[^>]* src=", page):
        found.append("the exported file needs another file")
    if node and not is_program(node, program_of(page)):
        found.append("the modules of the exported file are no program")
    return found


def of_refusals(program, folder):
    """Scripts that are not exported."""
    found, file = [], folder / "bad.html"
    status, _, said = tool(program, "-", "--export", str(file), data=BAD)
    if status != 1 or "page: the program says `line 2: out of place`" not in said or file.exists():
        found.append(f"a bad script ends with status {status}: {said}")
    for words, wanted in ((["--export", str(file)], 2), ([str(folder / "nothing"), "--export", str(file)], 3), (["--port", "x"], 2)):
        status, _, said = tool(program, *words)
        if status != wanted or "Traceback" in said:
            found.append(f"{words} ends with status {status}: {said}")
    for other in ("/bin/true", "/bin/false", str(folder / "nothing")):
        status, _, said = tool(other, "-", "--export", str(file), data=b"machine\n")
        if status != 3 or "Traceback" in said or file.exists():
            found.append(f"another program, {other}, ends with status {status}: {said}")
    return found


def faults(program, skipped):
    """All that is not as it has to be."""
    node = shutil.which("node")
    with tempfile.TemporaryDirectory() as folder:
        some = [one for one in chosen() if one["name"] in ("mask_rewrite", "locked_buffer", "isolated_tenant", "race_for_a_class")]
        found = [fault for one in some for fault in of_example(program, one, Path(folder) / f"{one['name']}.html", node)]
        return found + of_refusals(program, Path(folder))
