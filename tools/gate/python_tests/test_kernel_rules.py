"""The rules of tools/bikhnoun kernel, and what docs/RESCTRL.md and the probes have of them."""
from pathlib import Path
import re
import unittest

GATE = Path(__file__).resolve().parents[1]

from kernels import page
from kernels.lists import list_of
from kernels.rules import RULES

PROBES = GATE / "kernel_tests" / "probes"
ANSWERS = GATE / "kernel_tests" / "answers"


class Rules(unittest.TestCase):
    def test_page_has_the_table(self):
        text = page.PAGE.read_text()
        _, _, rest = text.partition(page.BEGIN)
        table, _, _ = rest.partition(page.END)
        self.assertEqual(table.strip("\n").split("\n"), page.tables())

    def test_links_lead_somewhere(self):
        anchors = re.findall(r'<a name="([^"]+)"></a>', page.PAGE.read_text())
        self.assertEqual(sorted(anchors), sorted(rule.anchor for rule in RULES))
        for other in (page.PAGE.parent).glob("*.md"):
            for anchor in re.findall(r"RESCTRL\.md#([a-z0-9-]+)", other.read_text()):
                self.assertTrue(anchor in anchors or f"# {anchor}" in headings(), msg=f"{other.name}: {anchor}")

    def test_each_rule_has_a_probe(self):
        told = "".join(path.read_text() for path in ANSWERS.glob("*/*.answers"))
        for rule in RULES:
            if rule.cases:
                self.assertTrue(f"{rule.link}\n" in told, msg=rule.name)
            else:
                self.assertIn("only from the kernel's source", rule.source, msg=rule.name)

    def test_probes_name_rules(self):
        links = {rule.link for rule in RULES}
        for path in ANSWERS.glob("*/*.answers"):
            for link in re.findall(r"docs/RESCTRL\.md#[a-z0-9-]+", path.read_text()):
                self.assertIn(link, links, msg=path.name)

    def test_probes_are_kept(self):
        for path in PROBES.glob("*.script"):
            self.assertTrue((ANSWERS / "6.12" / f"{path.stem}.answers").exists(), msg=path.name)


def headings():
    """The page's headings, as links name them."""
    found = re.findall(r"^#+ (.*)$", page.PAGE.read_text(), re.M)
    return {"# " + re.sub(r"[^a-z0-9 -]", "", heading.lower()).replace(" ", "-") for heading in found}


class Lists(unittest.TestCase):
    def test_a_seed_is_always_the_same_script(self):
        self.assertEqual(list_of(7), list_of(7))
        self.assertNotEqual(list_of(7), list_of(8))
