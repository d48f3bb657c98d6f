// The script as text, with numbers beside its lines and marks at its words.
import { byId, html } from "./drawing.js";

const TAB = 8;

// The column of a character as it is shown, where each tab goes to the next stop.
function columnOf(line, index) {
  let column = 0;
  for (const character of line.slice(0, index)) column += character === "\t" ? TAB - column % TAB : 1;
  return column;
}

export class Editor {
  constructor() {
    this.area = byId("script");
    this.layer = html("div", { class: "layer" });
    byId("marks").append(this.layer);
    this.marks = [];
    this.now = 0;
    // Whether the text is another than that of the last play.
    this.isChanged = false;
    this.area.addEventListener("scroll", () => this.follow());
    this.area.addEventListener("input", () => {
      this.isChanged = true;
      this.show([]);
    });
    new ResizeObserver(() => this.follow()).observe(this.area);
  }

  get text() {
    return this.area.value;
  }

  set text(text) {
    this.area.value = text;
    this.area.scrollTop = 0;
    this.show([]);
  }

  // The height of a line, and the width of a column, in pixels.
  get lineHeight() {
    return parseFloat(getComputedStyle(this.area).lineHeight);
  }

  // Shows these marks, and lists them.
  show(marks) {
    this.marks = marks;
    this.now = 0;
    this.area.setAttribute("aria-invalid", marks.some((mark) => mark.kind === "fault"));
    byId("remarks").replaceChildren(...marks.map((mark) => this.remark(mark)));
    this.draw();
  }

  // Shows which line the last entry comes from. Line 0 is none, and a text that was changed has none.
  showLine(line) {
    const now = this.isChanged ? 0 : line;
    if (now === this.now) return;
    this.now = now;
    this.draw();
  }

  draw() {
    const lines = this.text.split("\n");
    const marks = this.marks.filter((mark) => mark.line && mark.line <= lines.length).map((mark) => this.box(mark, lines[mark.line - 1]));
    const now = this.now ? [this.placed(html("span", { class: "now-line" }), this.now, 0)] : [];
    this.layer.replaceChildren(...now, ...marks);
    this.count = lines.length;
    this.follow();
  }

  placed(element, line, column) {
    element.style.top = `calc(${line - 1} * var(--line))`;
    element.style.left = `${column}ch`;
    return element;
  }

  box(mark, line) {
    const from = columnOf(line, mark.column), to = columnOf(line, mark.column + mark.width);
    const box = this.placed(html("span", { class: `mark ${mark.kind}` }), mark.line, from);
    box.style.width = `${Math.max(1, to - from)}ch`;
    return box;
  }

  // Keeps marks and numbers beside the lines that are seen.
  follow() {
    this.layer.style.transform = `translate(${-this.area.scrollLeft}px, ${-this.area.scrollTop}px)`;
    const height = this.lineHeight, first = Math.floor(this.area.scrollTop / height);
    const numbers = Math.min(Math.ceil(this.area.clientHeight / height) + 1, this.count - first);
    const gutter = byId("gutter");
    gutter.textContent = Array.from({ length: Math.max(0, numbers) }, (_, number) => first + number + 1).join("\n");
    gutter.style.setProperty("--up", `${first * height - this.area.scrollTop}px`);
  }

  // A mark in words; it leads to its word.
  remark(mark) {
    const place = mark.line ? `line ${mark.line}, column ${mark.column + 1}` : "the script";
    const button = html("button", { type: "button", class: "link" }, place);
    button.addEventListener("click", () => this.select(mark));
    const hint = mark.hint ? html("span", { class: "hint" }, ` hint: ${mark.hint}`) : "";
    return html("li", { class: mark.kind }, button, ` ${mark.what}: ${mark.because}.`, hint);
  }

  select(mark) {
    const lines = this.text.split("\n").slice(0, Math.max(0, mark.line - 1));
    const start = lines.reduce((sum, line) => sum + line.length + 1, 0) + mark.column;
    this.area.focus();
    this.area.setSelectionRange(start, start + mark.width);
    this.area.scrollTop = Math.max(0, (mark.line - 4) * this.lineHeight);
  }
}
