"""What is tried in a browser."""
from pathlib import Path
import re
import subprocess
import tempfile
import time

from paging.examples import examples
from paging.plays import play
from paging.single import single_file

from .browser import Wrong
from .chosen import chosen, offered
from .page import Page

BAD = "machine sets=64\ntasks 1\nphase\nthread\naccess 1 0 1f40\n"
LONG = "machine sets=1024 ways=16\ntasks 1-2\nphase\nthread\nmkdir /web\nwrite /web/schemata L3:0=f\nwrite /web/tasks 1\n" \
    "sweep 1 0 0 100000 64\nthread\nsweep 2 0 0x10000000 100000 64\n"
# The longest time in which the page may take no key, in milliseconds, and in readings of the report's JSON, which cannot be cut into
# parts: on a busy machine both take longer.
MOST_FROZEN, MOST_READINGS = 1000, 6
# Where the mark of a bad word has to be, in pixels from where its characters are.
NEAR = 4
TICKER = "(() => { window.worst = 0; let last = performance.now(); window.ticker = setInterval(() => { const now = performance.now();" \
    " window.worst = Math.max(window.worst, now - last); last = now; }, 5); })()"
READING = "(async () => { const { played } = await import('{0}link.js'), { report } = await played(document.getElementById('script').value, 'step');" \
    " const times = [1, 2, 3].map(() => { const since = performance.now(); JSON.parse(report); return performance.now() - since; });" \
    " return Math.max(...times); })()"
DIFFERENCES = "(async () => { const { played } = await import('{0}link.js'), { differences } = await import('{0}counts.js');" \
    " const { facts, report } = await played(document.getElementById('script').value, '{1}'); return differences(facts, report); })()"
# A click in the middle of the axis of the first chart, which goes from 56 to 606 of 640.
CLICK = "(() => { const chart = document.querySelector('.chart svg'), box = chart.getBoundingClientRect();" \
    " chart.dispatchEvent(new MouseEvent('click', { clientX: box.left + box.width * 331 / 640 })); })()"
MARK = "(() => { const mark = document.querySelector('.mark.fault').getBoundingClientRect(), area = document.getElementById('script')," \
    " box = area.getBoundingClientRect(), line = parseFloat(getComputedStyle(area).lineHeight); const context = document.createElement('canvas')" \
    ".getContext('2d'); context.font = getComputedStyle(area).font; const width = context.measureText('0').width;" \
    " return [mark.left - box.left - 6 - 11 * width, mark.top - box.top - 4 - 4 * line, mark.width - 4 * width]; })()"


def plays_each_example(page, program, every):
    """Each example is played, and its pictures have the counts of its report."""
    for example in examples() if every else offered():
        page.choose(example["name"])
        page.wants(f"the picture of {example['name']}", page.browser.value("document.querySelectorAll('.cache svg').length") > 0, True)
        differences = page.browser.value(DIFFERENCES.replace("{0}", page.address).replace("{1}", example["how"]))
        page.wants(f"the counts of {example['name']}", differences, [])


def moves_the_slider(page, program, every):
    """The arrow keys move through the history, and the pictures with it."""
    page.choose("mask_rewrite")
    end, last = page.html("caches"), page.position()
    page.slide("Home")
    page.wants("the first moment", page.position(), 0)
    page.wants("the cache before the first entry", "0 of 4 places" in page.text("caches"), True)
    page.slide("ArrowRight")
    page.wants("the cache after an entry", "1 of 4 places" in page.text("caches"), True)
    page.wants("the entry", "line 9 of the script" in page.text("entry"), True)
    page.slide("End")
    page.wants("the last moment", (page.position(), page.html("caches") == end), (last, True))
    page.browser.value("document.querySelector('#answers button').click()")
    page.drawn()
    page.wants("the moment of the first command", page.position(), 3)
    page.browser.value(CLICK)
    page.drawn()
    page.wants("the moment in the middle of a curve", page.position(), 5)


def edits_a_mask(page, program, every):
    """A mask that is written in another way is drawn in another way."""
    page.choose("mask_rewrite")
    before, at = page.html("caches"), page.script().index("L3:0=c") + 5
    page.write_over(at, at + 1, "3")
    page.wants("the status of a changed script", page.text("status"), "The script has changed since it was played.")
    page.play()
    page.wants("another picture", page.html("caches") != before, True)
    page.wants("the mask of the picture", "Masks: / 3." in page.html("caches"), True)


def marks_a_bad_word(page, program, every):
    """A bad word is marked while one types, and where it stands."""
    page.write(BAD)
    page.browser.wait("document.querySelector('.mark.fault')")
    off = page.browser.value(MARK)
    page.wants(f"the mark is at its word, {off} pixels off", all(abs(one) <= NEAR for one in off), True)
    page.play()
    page.wants("the status", page.text("status"), "The script is invalid: line 5: bad argument")
    page.browser.value("document.querySelector('#remarks button').click()")
    word = "(() => { const area = document.getElementById('script'); return area.value.slice(area.selectionStart, area.selectionEnd); })()"
    page.wants("the word that a click selects", page.browser.value(word), "1f40")


def stays_awake(page, program, every):
    """200,000 accesses do not freeze the page, and it says what it does not draw."""
    page.write(LONG)
    page.browser.value(TICKER)
    page.play(120)
    page.wants("the status", "200,000 accesses" in page.text("status"), True)
    page.wants("what is thinned", "of 200,00" in page.text("thinned") and "of 200,00" in page.text("lanes"), True)
    for key in ("Home", "ArrowRight", "End", "ArrowLeft"):
        page.slide(key)
    worst = page.browser.value("(clearInterval(window.ticker), window.worst)")
    most = max(MOST_FROZEN, MOST_READINGS * page.browser.value(READING.replace("{0}", page.address)))
    page.wants(f"the page is frozen for {worst:.0f} ms, and at most for {most:.0f} ms", worst < most, True)


def runs_a_race(page, program, every):
    """A race is run again and again, and its order is played step by step."""
    page.choose("race_for_a_class")
    for _ in range(2):
        page.forget()
        page.click("again")
        page.done()
    page.wants("the runs", page.text("runs").startswith("3 runs of this script gave "), True)
    entries = page.text("answers")
    page.forget()
    page.click("replay")
    page.done()
    page.wants("the order in the script", "\norder " in page.script(), True)
    page.wants("the answers of the same order", page.text("answers"), entries)


def has_names(page, program, every):
    """Whatever takes a key has a name, and Tab goes from one to the next."""
    page.choose("isolated_tenant")
    nodes = page.browser.call("Accessibility.getFullAXTree")["nodes"]
    kinds = {"button", "slider", "textbox", "combobox", "radio", "image", "img", "link", "group"}
    shown = [node for node in nodes if not node["ignored"] and node["role"]["value"] in kinds]
    unnamed = [node["role"]["value"] for node in shown if not node.get("name", {}).get("value")]
    page.wants("what has no name", unnamed, [])
    page.browser.value("(document.activeElement.blur(), window.scrollTo(0, 0))")
    page.browser.value("document.querySelector('.skip').focus()")
    reached = []
    for _ in range(7):
        page.browser.key("Tab")
        reached.append(page.browser.value("document.activeElement.id || document.activeElement.name"))
    page.wants("the order of Tab", reached, ["example", "how", "play", "script", "back", "slider", "on"])


def fits_a_narrow_screen(page, program, every):
    """On a narrow screen nothing stands out to the side, and dark is dark."""
    colour = "getComputedStyle(document.body).backgroundColor"
    light = page.browser.value(colour)
    page.browser.look(380, 800, "dark")
    page.drawn()
    width = page.browser.value("document.documentElement.scrollWidth")
    dark = page.browser.value(colour)
    page.browser.look(1280, 900)
    page.wants("the width of the page", width <= 380, True)
    page.wants("dark is another colour", dark != light, True)


def opens_an_export(page, program, every):
    """The exported file shows a play without a server."""
    data = next(one["text"] for one in chosen() if one["name"] == "locked_buffer").encode("ascii")
    with tempfile.TemporaryDirectory() as folder:
        file = Path(folder) / "play.html"
        file.write_text(single_file(data, play(program, data, "step")), encoding="utf-8")
        page.open(file.as_uri())
        page.slide("Home")
        page.wants("the first moment", page.position(), 0)
        page.wants("the script", page.script(), data.decode("ascii"))
        page.wants("a button that needs a server", page.browser.value("document.getElementById('play').hidden"), True)
    page.open()


STEPS = (
    plays_each_example, moves_the_slider, edits_a_mask, marks_a_bad_word, stays_awake, runs_a_race, has_names, fits_a_narrow_screen, opens_an_export,
)


def all_of(browser, server, program, every):
    """Tries all, says of each how it went, and returns how many failed."""
    page, failed = Page(browser, server.address), 0
    browser.look(1280, 900)
    page.open()
    for step in STEPS:
        started, why = time.monotonic(), ""
        try:
            step(page, program, every)
            page.wants("what the browser complains about", browser.errors, [])
        except (Wrong, subprocess.SubprocessError) as wrong:
            why, failed = f": {wrong}", failed + 1
        browser.errors.clear()
        print(f"{'FAILED' if why else 'passed'} {time.monotonic() - started:4.0f} s  {re.sub('_', ' ', step.__name__)}{why}", flush=True)
    return failed
