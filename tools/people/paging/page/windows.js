// The windows of isolation as bars: the accesses of the group, those that hit, and those that hit in a cache of its own.
import { counted, html, picture, rect, shown, svg, text } from "./drawing.js";
import { fillOf, swatch } from "./looks.js";

const WIDTH = 420, BAR = 22, LEFT = 70, SCALE = 250;
const MOST = 60;
const NOTE = "Covered are the accesses before which no other group used a line of the group. " +
  "That as many of them hit as in a private cache is proved.";

// A bar of so many accesses, and the filled part of it.
function bar(look, name, all, part, most, y) {
  const unit = SCALE / Math.max(1, most);
  return svg("g", {}, text(LEFT - 6, y + 15, name, { class: "name" }), rect(LEFT, y + 3, all * unit, BAR - 7, { class: "frame" }),
    rect(LEFT, y + 3, part * unit, BAR - 7, { fill: fillOf(look), class: "edge" }),
    text(LEFT + all * unit + 6, y + 15, `${shown(part)} of ${shown(all)} hit`, { class: "tick" }));
}

// A window in words.
function sentence(window, path) {
  const all = `${counted(window.accesses, "access", "accesses")}, of which ${shown(window.hits)} hit`;
  const covered = `${shown(window.covered)} covered, of which ${shown(window.covered_hits)} hit`;
  const own = `${shown(window.private)} in a private cache of ${counted(window.ways, "way")}`;
  return `${path} in cache ${window.domain}, slice ${window.slice}: ${all}; ${covered}, and ${own}.`;
}

function drawWindow(play, window) {
  const look = play.look(window.gid), most = window.accesses;
  const drawn = picture(WIDTH, 3 * BAR, sentence(window, look.path), bar(look, "all", window.accesses, window.hits, most, 0),
    bar(look, "covered", window.covered, window.covered_hits, most, BAR), bar(look, "private", window.covered, window.private, most, 2 * BAR));
  const from = `after entry ${shown(window.from)} of slice ${window.domain}.${window.slice}`;
  return html("figure", { class: "window" },
    html("figcaption", {}, swatch(look), ` ${look.path}, ${counted(window.ways, "way")}, ${from}`), html("div", { class: "scroll" }, drawn));
}

// Draws the windows of a play.
export function drawWindows(play, into) {
  const windows = play.report.windows;
  if (!windows.length) {
    into.replaceChildren(html("p", { class: "hint" }, "There is none: no group has an access after a flush while it is exclusive."));
    return;
  }
  const thinned = windows.length > MOST ? ` The first ${shown(MOST)} of ${shown(windows.length)} windows are drawn.` : "";
  into.replaceChildren(html("div", { class: "wrap" }, ...windows.slice(0, MOST).map((window) => drawWindow(play, window))),
    html("p", { class: "hint" }, NOTE + thinned));
}
