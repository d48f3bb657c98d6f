// How a group looks: a letter, a colour, a pattern for its areas and dashes for its curves, so that none needs colours to be told apart.
import { byId, html, rect, svg } from "./drawing.js";

const COLOURS = ["#3d7dca", "#e08a1e", "#2f9e77", "#c2569b", "#8a7fd6", "#c9553a", "#8f9a2b", "#7a8794"];
const DASHES = ["", "7 4", "2 3", "9 3 2 3", "12 5", "5 2 1 2 1 2", "3 6", "1 4"];
const SIZE = 8;
// The lines of each pattern, in a square of that size.
const PATTERNS = [
  "", "M0 8 L8 0 M-2 2 L2 -2 M6 10 L10 6", "M2 2 h2 v2 h-2 z", "M0 2 H8 M0 6 H8", "M0 0 L8 8 M-2 6 L2 10 M6 -2 L10 2",
  "M2 0 V8 M6 0 V8", "M0 4 H8 M4 0 V8", "M0 8 L8 0 M0 0 L8 8",
];
const MOST = COLOURS.length * PATTERNS.length;

export function colourOf(look) {
  return COLOURS[look.number % COLOURS.length];
}

export function dashesOf(look) {
  return DASHES[(look.number + Math.floor(look.number / COLOURS.length)) % DASHES.length];
}

// What an area of the group is filled with.
export function fillOf(look) {
  return `url(#look-${look.number % MOST})`;
}

function pattern(look) {
  const lines = PATTERNS[(look.number + Math.floor(look.number / COLOURS.length)) % PATTERNS.length];
  return svg("pattern", { id: `look-${look.number}`, width: SIZE, height: SIZE, patternUnits: "userSpaceOnUse" },
    rect(0, 0, SIZE, SIZE, { fill: colourOf(look) }), svg("path", { d: lines, class: "texture" }));
}

// Puts the patterns of these groups into the page.
export function definePatterns(looks) {
  byId("patterns").replaceChildren(svg("defs", {}, ...[...looks.values()].slice(0, MOST).map(pattern)));
}

// A small square of the group with its letter.
export function swatch(look) {
  return html("span", { class: "swatch" }, svg("svg", { width: 20, height: 16, "aria-hidden": "true" },
    rect(0.5, 0.5, 19, 15, { fill: fillOf(look), class: "edge" }), svg("text", { x: 10, y: 12, class: "letter" }, look.letter)));
}
