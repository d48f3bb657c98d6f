// Makes elements of the page and of its pictures.

const SVG = "http://www.w3.org/2000/svg";

function filled(element, attributes, children) {
  for (const [name, value] of Object.entries(attributes)) {
    if (value !== false && value !== undefined) element.setAttribute(name, value === true ? "" : value);
  }
  element.append(...children.filter((child) => child !== null && child !== undefined));
  return element;
}

// An element of a picture.
export function svg(name, attributes = {}, ...children) {
  return filled(document.createElementNS(SVG, name), attributes, children);
}

// An element of the page.
export function html(name, attributes = {}, ...children) {
  return filled(document.createElement(name), attributes, children);
}

// A picture of a width and a height, with the words that say what it shows.
export function picture(width, height, label, ...children) {
  return svg("svg", { viewBox: `0 0 ${width} ${height}`, width, height, role: "img", "aria-label": label }, ...children);
}

export function text(x, y, words, attributes = {}) {
  return svg("text", { x, y, ...attributes }, words);
}

export function rect(x, y, width, height, attributes = {}) {
  return svg("rect", { x, y, width: Math.max(0, width), height: Math.max(0, height), ...attributes });
}

// A number as people read it.
export function shown(number) {
  return number.toLocaleString("en");
}

// So many of something.
export function counted(number, one, many = `${one}s`) {
  return `${shown(number)} ${number === 1 ? one : many}`;
}

// A part of the page that is scrolled by itself, also by keys.
export function scrolled(name, content, kind = "scroll") {
  return html("div", { class: kind, tabindex: 0, role: "group", "aria-label": name }, content);
}

export function byId(name) {
  return document.getElementById(name);
}
