// The right side of the page: everything about one play, at the moment that the slider says.
import { drawAnswers, drawGroups } from "./answers.js";
import { drawCache } from "./cache.js";
import { drawCurves } from "./curves.js";
import { byId, shown } from "./drawing.js";
import { drawLanes, textOf } from "./lanes.js";
import { definePatterns } from "./looks.js";
import { MEANINGS } from "./usage.js";
import { drawWindows } from "./windows.js";

// So many characters of the report are shown; the rest can be saved.
const MOST_SHOWN = 100000;

function legend() {
  const uses = [...MEANINGS].map(([letter, meaning]) => `${letter} ${meaning}`);
  return `Each letter is a group, see the table below. Use of a way: ${uses.join(", ")}. ` +
    "A ring is where the last entry hit (whole) or filled (dashed).";
}

export class Result {
  constructor(play, editor) {
    this.play = play;
    this.editor = editor;
    this.slider = byId("slider");
    this.asked = null;
  }

  // Draws what stays the same, and then the end of the history.
  draw() {
    definePatterns(this.play.looks);
    byId("legend").textContent = legend();
    this.moveCurves = drawCurves(this.play, byId("curves"), (at) => this.moveTo(at));
    drawWindows(this.play, byId("windows"));
    drawGroups(this.play, byId("groups"));
    this.markAnswer = drawAnswers(this.play, byId("answers"), (at) => this.moveTo(at));
    this.drawText();
    this.slider.max = this.play.history.length;
    this.slider.oninput = () => this.ask(Number(this.slider.value));
    byId("back").onclick = () => this.moveTo(Number(this.slider.value) - 1);
    byId("on").onclick = () => this.moveTo(Number(this.slider.value) + 1);
    byId("shown").hidden = false;
    this.moveTo(this.play.history.length);
  }

  drawText() {
    const text = this.play.text, more = text.length > MOST_SHOWN;
    byId("json-text").textContent = more ? `${text.slice(0, MOST_SHOWN)}…` : text;
    byId("json-hint").textContent = more ? `The first ${shown(MOST_SHOWN)} of ${shown(text.length)} characters are shown.` : "";
    const link = byId("download");
    if (link.href) URL.revokeObjectURL(link.href);
    link.href = URL.createObjectURL(new Blob([text, "\n"], { type: "application/json" }));
  }

  moveTo(at) {
    this.slider.value = at;
    this.ask(Number(this.slider.value));
  }

  // Draws a moment when the browser draws next, and only the last one that was asked for.
  ask(at) {
    if (this.asked === null) requestAnimationFrame(() => this.drawMoment());
    this.asked = at;
  }

  drawMoment() {
    const at = this.asked, state = this.play.tour.at(at), { history } = this.play;
    this.asked = null;
    this.drawCaches(state);
    this.moveCurves(at);
    drawLanes(this.play, at, byId("lanes"), (goal) => this.moveTo(goal));
    this.markAnswer(state.taken);
    byId("position").textContent = `${shown(at)} of ${shown(history.length)}`;
    this.drawEntry(at);
  }

  // Draws the caches anew, each as far to the side as it was.
  drawCaches(state) {
    const caches = byId("caches"), sides = [...caches.querySelectorAll(".scroll")].map((box) => box.scrollLeft);
    const domains = Array.from({ length: this.play.machine.domains }, (_, domain) => domain);
    caches.replaceChildren(...domains.map((domain) => drawCache(this.play, state, domain)));
    caches.querySelectorAll(".scroll").forEach((box, number) => { box.scrollLeft = sides[number] || 0; });
  }

  drawEntry(at) {
    const row = at ? this.play.history.rows[at - 1] : -1, entries = this.play.history.entries;
    const line = row < 0 ? 0 : this.play.lineOf(entries.thread[row], entries.op[row]);
    const words = row < 0 ? "before the first entry" : `${textOf(this.play, at - 1)} (line ${line} of the script)`;
    byId("entry").textContent = words;
    this.slider.setAttribute("aria-valuetext", `entry ${at}: ${words}`);
    this.editor.showLine(line);
  }
}
