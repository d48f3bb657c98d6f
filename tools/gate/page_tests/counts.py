"""Whether the counts of the pictures are those of the reports, by node."""
import json
import os
import shutil
import subprocess

from paging.plays import play

from .chosen import chosen

HERE = os.path.dirname(os.path.abspath(__file__))


def plays_of(program):
    """Each example as it is to be played, and each that races step by step too."""
    for example in chosen():
        for how in sorted({example["how"], "step"}):
            done = play(program, example["text"].encode("ascii"), how)
            yield {"name": f"{example['name']} by {how}", "facts": done.facts, "report": done.report.decode("ascii")}


def faults(program, skipped):
    """Each difference between what the modules of the page count and what a report says."""
    node = shutil.which("node")
    if not node:
        skipped.append("the counts of the pictures were passed over, node is missing")
        return []
    given = "\n".join(map(json.dumps, plays_of(program)))
    words = [node, os.path.join(HERE, "counts.mjs")]
    done = subprocess.run(words, input=given.encode("ascii"), stdout=subprocess.PIPE, stderr=subprocess.PIPE, check=False)
    if done.returncode:
        return [f"node ended with status {done.returncode}: {done.stderr.decode('utf-8')}"]
    return done.stdout.decode("utf-8").splitlines()
