"""The manual pages have each word and each option that --help has, and no other."""
import re
import shutil
import subprocess
import unittest

from bikhnoun.command import WORDS
from installed import EVERYWHERE, FLAG, TOP, options_of

MAN = TOP / "docs" / "man"
OLD = ("explain", "kernel", "mount", "page", "timeline", "traces", "ways")


def text_of(name):
    return re.sub(r"\\f.", "", (MAN / name).read_text(encoding="ascii").replace("\\-", "-"))


def parts():
    """Each word of bikhnoun.1 with the text of its parts."""
    found = {}
    for part in re.split(r"^\.SS ", text_of("bikhnoun.1"), flags=re.M)[1:]:
        found[part.split()[0]] = found.get(part.split()[0], "") + part.split("\n.SH ")[0]
    return found


class Manual(unittest.TestCase):
    def test_each_word_with_its_options(self):
        page = parts()
        page["play"] = page["run"]
        for word in WORDS:
            wanted = options_of(word) if word != "plan" else set().union(*(options_of("plan", kind) for kind in ("draw", "curve", "filter", "divide", "share")))
            if word == "mount":
                wanted = set()
            has = set(FLAG.findall(page[word])) | ({"--program"} if "--program" in wanted else set())
            self.assertEqual(has, wanted, msg=word)
        self.assertEqual(set(page), {*WORDS, "Options"})

    def test_pages_of_the_earlier_names(self):
        for word in OLD:
            has = set(FLAG.findall(text_of(f"resctrl_sim-{word}.1"))) - {"--trace-mem", *EVERYWHERE}
            self.assertEqual(has, options_of(word), msg=word)

    @unittest.skipUnless(shutil.which("man"), "man is missing (Debian: man-db)")
    def test_man_reads_them_without_a_warning(self):
        for page in sorted(MAN.glob("*.1")):
            done = subprocess.run(["man", "--warnings", "-E", "UTF-8", "-l", str(page)], stdout=subprocess.DEVNULL, stderr=subprocess.PIPE, check=False)
            self.assertEqual((done.returncode, done.stderr), (0, b""), msg=page)
