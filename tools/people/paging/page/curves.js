// Curves over the history: the lines that each group holds, and its misses so far.
import { html, picture, rect, scrolled, shown, svg, text } from "./drawing.js";
import { colourOf, dashesOf } from "./looks.js";

const WIDTH = 640, HEIGHT = 170, LEFT = 56, RIGHT = 34, TOP = 12, BOTTOM = 22;
const LETTER_HEIGHT = 13;
// So many groups have a curve at most: those with the most.
const MOST_GROUPS = 24;

class Chart {
  constructor(play, name, value) {
    this.play = play;
    this.name = name;
    this.value = value;
    this.samples = play.tour.samples;
    this.length = Math.max(1, play.history.length);
    const tops = [...play.looks.keys()].map((gid) => ({ gid, top: this.top(gid) })).filter(({ top }) => top);
    tops.sort((one, other) => other.top - one.top);
    this.all = tops.length;
    this.most = Math.max(1, tops[0]?.top || 0);
    this.gids = tops.slice(0, MOST_GROUPS).map(({ gid }) => gid).sort((one, other) => one - other);
    this.cursor = svg("line", { y1: TOP, y2: HEIGHT - BOTTOM, class: "cursor" });
  }

  // The highest value of a group.
  top(gid) {
    return this.samples.reduce((top, sample) => Math.max(top, this.value(sample, gid)), 0);
  }

  x(at) {
    return LEFT + (WIDTH - LEFT - RIGHT) * at / this.length;
  }

  y(value) {
    return HEIGHT - BOTTOM - (HEIGHT - TOP - BOTTOM) * value / this.most;
  }

  // A value stays until the next sample, so a curve goes in steps.
  curve(gid) {
    const look = this.play.look(gid);
    let path = "";
    this.samples.forEach((sample, number) => {
      const x = this.x(sample.at).toFixed(1), y = this.y(this.value(sample, gid)).toFixed(1);
      path += number ? ` H${x} V${y}` : `M${x} ${y}`;
    });
    return svg("path", { d: path, class: "curve", stroke: colourOf(look), "stroke-dasharray": dashesOf(look) }, svg("title", {}, look.path));
  }

  // The letters at the right ends, none over another.
  letters() {
    const ends = this.gids.map((gid) => ({ look: this.play.look(gid), y: this.y(this.value(this.samples.at(-1), gid)) }));
    ends.sort((one, other) => other.y - one.y);
    let last = Infinity;
    return ends.map(({ look, y }) => {
      last = Math.min(y, last - LETTER_HEIGHT);
      return text(WIDTH - RIGHT + 6, last + 4, look.letter, { class: "end", fill: colourOf(look) });
    });
  }

  axes() {
    const bottom = HEIGHT - BOTTOM;
    return [
      rect(LEFT, TOP, WIDTH - LEFT - RIGHT, bottom - TOP, { class: "plot" }),
      text(LEFT - 6, TOP + 5, shown(this.most), { class: "name" }), text(LEFT - 6, bottom + 4, "0", { class: "name" }),
      text(LEFT, HEIGHT - 6, "0", { class: "tick" }),
      text(WIDTH - RIGHT, HEIGHT - 6, `${shown(this.play.history.length)} entries`, { class: "tick end-at" }),
    ];
  }

  // The curves in words.
  words() {
    const last = this.samples.at(-1), ends = this.gids.map((gid) => `${this.play.look(gid).path} ${shown(this.value(last, gid))}`);
    return `${this.name} over the history, at its end: ${ends.join(", ") || "none"}.`;
  }

  draw(moveTo) {
    const curves = this.gids.map((gid) => this.curve(gid));
    const drawn = picture(WIDTH, HEIGHT, this.words(), ...this.axes(), ...curves, ...this.letters(), this.cursor);
    this.listen(drawn, moveTo);
    const some = this.gids.length < this.all ? `, of ${shown(this.gids.length)} of ${shown(this.all)} groups` : "";
    return html("figure", { class: "chart" }, html("figcaption", {}, this.name + some), scrolled(this.name, drawn));
  }

  // The moment below a place of the screen, in pixels from the left of the picture as it is shown.
  momentAt(x, width) {
    const part = (x * WIDTH / width - LEFT) / (WIDTH - LEFT - RIGHT);
    return Math.round(Math.max(0, Math.min(1, part)) * this.play.history.length);
  }

  // Calls back with the moment that is clicked.
  listen(drawn, moveTo) {
    drawn.addEventListener("click", (event) => {
      const box = drawn.getBoundingClientRect();
      moveTo(this.momentAt(event.clientX - box.left, box.width));
    });
  }

  moveTo(at) {
    this.cursor.setAttribute("x1", this.x(at));
    this.cursor.setAttribute("x2", this.x(at));
  }
}

// Draws both charts, and returns what moves their cursors. A click on one moves the slider.
export function drawCurves(play, into, moveTo) {
  const where = play.machine.domains > 1 ? "in all caches" : "in the cache";
  const charts = [
    new Chart(play, `Lines held ${where}`, (sample, gid) => sample.held.get(gid) || 0),
    new Chart(play, "Misses so far", (sample, gid) => sample.misses.get(gid) || 0),
  ];
  const points = play.tour.samples.length, all = play.history.length + 1;
  const note = html("p", { class: "hint", id: "thinned" }, `The curves are drawn at ${shown(points)} of ${shown(all)} moments.`);
  into.replaceChildren(...charts.map((chart) => chart.draw(moveTo)), ...(points < all ? [note] : []));
  return (at) => charts.forEach((chart) => chart.moveTo(at));
}
