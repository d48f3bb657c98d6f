// The picture of a cache: above the masks of the groups, below them for each way whose lines it holds, and what it is used for.
import { FILL } from "./entries.js";
import { counted, html, picture, rect, scrolled, shown, svg, text } from "./drawing.js";
import { fillOf } from "./looks.js";
import { letterOf, MEANINGS, sharersOf } from "./usage.js";

const LEFT = 118, HEAD = 18, ROW = 20, BODY = 140, CELL = 22, FOOT = 40;
// A cache of at most so many sets is drawn place by place.
const MOST_CELLS = 8;
const MOST_ROWS = 16;

// The width of a way, so that two caches of a few ways stand side by side.
function widthOf(machine) {
  if (machine.ways > 20) return 20;
  return machine.ways > 12 || machine.domains > 1 ? 26 : 40;
}

// Where things stand in the picture of a cache.
class Sheet {
  constructor(machine, groups) {
    this.machine = machine;
    this.way = widthOf(machine);
    this.rows = groups.length;
    this.top = HEAD + this.rows * ROW + 6;
    this.cells = machine.sets <= MOST_CELLS;
    this.body = this.cells ? machine.sets * CELL : BODY;
    this.width = LEFT + machine.ways * this.way + 8;
    this.height = this.top + this.body + FOOT;
  }

  // The left side of a way: the highest stands first, as in a written mask.
  x(way) {
    return LEFT + (this.machine.ways - 1 - way) * this.way;
  }
}

function wayNumbers(sheet) {
  return Array.from({ length: sheet.machine.ways }, (_, way) => text(sheet.x(way) + sheet.way / 2, 12, way, { class: "tick middle" }));
}

// The runs of ways side by side in a mask, each as its lowest and its highest way.
function runsOf(mask, ways) {
  const runs = [];
  for (let way = 0; way < ways; way += 1) {
    if (!((mask >>> way) & 1)) continue;
    if (runs.length && runs.at(-1)[1] === way - 1) runs.at(-1)[1] = way;
    else runs.push([way, way]);
  }
  return runs;
}

const MODES = { exclusive: " E", "pseudo-locked": " P", "pseudo-locksetup": " …" };

// The mask of a group as bars over its ways.
function maskRow(play, sheet, group, domain, number) {
  const look = play.look(group.gid), y = HEAD + number * ROW, mask = group.waysIn(domain);
  const name = `${look.letter} ${group.path}`, short = name.length > 15 ? `${name.slice(0, 14)}…` : name;
  const bars = runsOf(mask || 0, sheet.machine.ways).map(([low, high]) => {
    const x = sheet.x(high) + 2, width = (high - low + 1) * sheet.way - 4;
    return svg("g", {}, rect(x, y + 2, width, ROW - 5, { fill: fillOf(look), class: `edge mask ${group.mode}`, rx: 3 }),
      text(x + width / 2, y + ROW - 6, look.letter, { class: "letter" }));
  });
  return svg("g", {}, svg("title", {}, `${group.path}: ${group.mode}, mask ${mask === null ? "none" : mask.toString(16)}`),
    text(LEFT - 6, y + ROW - 6, short + (MODES[group.mode] || ""), { class: "name" }), ...bars);
}

// The lines of a way, one group's on another's. What is lower than a pixel is left out.
function stack(play, sheet, state, domain, way) {
  const heightOf = (lines) => sheet.body * lines / sheet.machine.sets;
  const counts = [...state.places.byWay[domain][way]].filter(([, lines]) => heightOf(lines) >= 1).sort(([one], [other]) => one - other);
  let y = sheet.top + sheet.body;
  return counts.map(([gid, lines]) => {
    const look = play.look(gid), height = heightOf(lines), x = sheet.x(way) + 3;
    y -= height;
    return svg("g", {}, svg("title", {}, `way ${way}: ${counted(lines, "line")} of ${look.path}`),
      rect(x, y, sheet.way - 6, height, { fill: fillOf(look), class: "edge held" }),
      height >= 13 ? text(x + sheet.way / 2 - 3, y + height / 2 + 4, look.letter, { class: "letter" }) : null);
  });
}

// The places of a way, each with the letter of whoever filled it.
function cells(play, sheet, state, domain, way) {
  return Array.from({ length: sheet.machine.sets }, (_, set) => {
    const gid = state.places.ownerAt(domain, set, way), x = sheet.x(way) + 3, y = sheet.top + set * CELL + 2;
    if (gid < 0) return null;
    const look = play.look(gid);
    return svg("g", {}, svg("title", {}, `set ${set} way ${way}: line ${state.places.lineAt(domain, set, way)} of ${look.path}`),
      rect(x, y, sheet.way - 6, CELL - 4, { fill: fillOf(look), class: "edge held" }),
      text(x + sheet.way / 2 - 3, y + CELL / 2 + 2, look.letter, { class: "letter" }));
  });
}

// What a way is used for: below it a letter, and how many masks have it; a locked way has a frame of its own.
function use(play, sheet, groups, domain, way) {
  const letter = letterOf(groups, domain, way, play.machine.shareable), sharers = sharersOf(groups, domain, way);
  const x = sheet.x(way) + sheet.way / 2, y = sheet.top + sheet.body;
  const frame = { P: "way locked", E: "way own" }[letter] || (sharers > 1 ? "way shared" : "way");
  return svg("g", {}, rect(sheet.x(way) + 1, sheet.top, sheet.way - 2, sheet.body, { class: frame }),
    text(x, y + 15, letter, { class: "use middle" }), text(x, y + 32, sharers, { class: "tick middle" }),
    svg("title", {}, `way ${way}: ${MEANINGS.get(letter)}, in ${counted(sharers, "mask")}`));
}

// A ring around the way, or the place, that the last entry touched.
function ring(play, sheet, state, domain) {
  const history = play.history, row = state.made ? history.rows[state.made - 1] : -1, entries = history.entries;
  if (row < 0 || entries.domain[row] !== domain || !entries.isAccess(row)) return null;
  const y = sheet.cells ? sheet.top + entries.set[row] * CELL : sheet.top, height = sheet.cells ? CELL : sheet.body;
  const kind = entries.kind[row] === FILL ? "now filled" : "now hit";
  return rect(sheet.x(entries.way[row]), y, sheet.way, height, { class: kind, rx: 4 });
}

// The picture in words.
function words(play, state, groups, domain) {
  const held = [...state.places.byGroup[domain]].map(([gid, lines]) => `${play.look(gid).path} ${lines}`);
  const masks = groups.filter((group) => group.waysIn(domain) !== null).map((group) => `${group.path} ${group.waysIn(domain).toString(16)}`);
  return `Cache ${domain}. Lines held: ${held.join(", ") || "none"}. Masks: ${masks.join(", ")}.`;
}

function labels(sheet) {
  const name = (y, words) => text(LEFT - 6, y, words, { class: "name" }), bottom = sheet.top + sheet.body;
  const sets = Array.from({ length: sheet.machine.sets * sheet.cells }, (_, set) => name(sheet.top + set * CELL + 15, `set ${set}`));
  const all = sheet.cells ? [] : [name(sheet.top + 12, counted(sheet.machine.sets, "set"))];
  return [...all, ...sets, name(bottom + 15, "use"), name(bottom + 32, "masks")];
}

// A cache after the entries that a state has made.
export function drawCache(play, state, domain) {
  const groups = state.groups.all, rows = groups.slice(0, MOST_ROWS), sheet = new Sheet(play.machine, rows);
  const ways = Array.from({ length: play.machine.ways }, (_, way) => way);
  const content = sheet.cells ? cells : stack;
  const drawn = picture(sheet.width, sheet.height, words(play, state, groups, domain), ...wayNumbers(sheet),
    ...rows.map((group, number) => maskRow(play, sheet, group, domain, number)),
    ...ways.map((way) => use(play, sheet, groups, domain, way)), ...ways.flatMap((way) => content(play, sheet, state, domain, way)),
    ...labels(sheet), ring(play, sheet, state, domain));
  const held = [...state.places.byGroup[domain].values()].reduce((sum, lines) => sum + lines, 0);
  const more = groups.length > rows.length ? `; the masks of ${rows.length} of ${groups.length} groups` : "";
  return html("figure", { class: "cache" },
    html("figcaption", {}, `Cache ${domain}: ${shown(held)} of ${shown(sheet.machine.sets * sheet.machine.ways)} places hold a line${more}`),
    scrolled(`Cache ${domain}`, drawn));
}
