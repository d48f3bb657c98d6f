// The threads as lanes: what each did, in the order of the histories, around one moment.
import { LETTERS, NAMES } from "./entries.js";
import { counted, html, picture, rect, scrolled, shown, svg, text } from "./drawing.js";
import { fillOf } from "./looks.js";

const STEP = 22, LANE = 26, NAMES_WIDTH = 84, LEFT = 4, HEAD = 20;
// So many entries are drawn at most, and so many commands between two of them.
const MOST = 60;
const MOST_COMMANDS = 20;
const LEGEND = "h hit, m miss, c command, x refused command, r raise, F flush, L lock, l look, d drop. " +
  "A line stands between two phases. Each box says more when it is pointed at.";

// The entries of a part of a history, with the commands between them: each event is a number of an entry or of a command.
class Events {
  constructor(play, first, end) {
    this.play = play;
    this.list = [];
    this.command = first ? play.history.taken[first - 1] : 0;
    // How many commands are left out.
    this.left = 0;
    for (let entry = first; entry < end; entry += 1) {
      this.takeTo(play.history.taken[entry]);
      this.list.push({ entry });
    }
    if (end === play.history.length) this.takeTo(play.report.commands.length);
  }

  // Adds the commands up to this one. Of many without an entry between them only the last ones are drawn.
  takeTo(count) {
    const from = Math.max(this.command, count - MOST_COMMANDS);
    this.left += from - this.command;
    for (let command = from; command < count; command += 1) this.list.push({ command });
    this.command = Math.max(this.command, count);
  }
}

// The part of a history around a moment.
function partAround(history, at) {
  const first = Math.max(0, Math.min(at - MOST / 2, history.length - MOST));
  return { first, end: Math.min(history.length, first + MOST) };
}

// What an event shows: its thread, its letter, its words, and how its box looks.
function shownEvent(play, event) {
  if (event.command !== undefined) {
    const command = play.report.commands[event.command], isRefused = !command.result.startsWith("ok");
    const words = `command ${command.thread}.${command.op} ${command.words}: ${command.result}`;
    return { thread: command.thread, letter: isRefused ? "x" : "c", words, look: isRefused ? "event refused" : "event command" };
  }
  const history = play.history, row = history.rows[event.entry], entries = history.entries, kind = entries.kind[row];
  const words = `entry ${event.entry + 1}, ${NAMES[kind]}: ${textOf(play, event.entry)}`;
  const fill = entries.isAccess(row) ? fillOf(play.look(entries.gid[row])) : undefined;
  return { thread: entries.thread[row], letter: LETTERS[kind], words, look: `event ${NAMES[kind]}`, fill };
}

// An entry as the report has it, with its slice.
export function textOf(play, at) {
  const { part, position } = play.history.originOf(play.history.rows[at]), slice = play.report.journal[part];
  return `slice ${slice.domain}.${slice.slice}: ${slice.entries[position]}`;
}

function drawEvent(play, event, number, lanes, moveTo) {
  const shows = shownEvent(play, event), x = LEFT + number * STEP, y = HEAD + lanes.indexOf(shows.thread) * LANE;
  const box = svg("g", { class: shows.look }, svg("title", {}, shows.words),
    rect(x + 1, y + 3, STEP - 3, LANE - 7, { rx: shows.fill ? 2 : 8, fill: shows.fill }),
    text(x + STEP / 2, y + LANE - 8, shows.letter, { class: "letter" }));
  const goal = event.entry === undefined ? play.history.placeOf(event.command) : event.entry + 1;
  box.addEventListener("click", () => moveTo(goal));
  return box;
}

// Where the slider stands among the events, in pixels from the left.
function cursorOf(events, at) {
  return LEFT + (events.findLastIndex((event) => event.entry < at) + 1) * STEP;
}

function cursor(x, height) {
  return svg("line", { x1: x, x2: x, y1: 0, y2: height, class: "cursor" });
}

// The phase of a thread.
function phaseOf(play, thread) {
  return play.facts.phases.findIndex((threads) => threads.includes(thread));
}

function lane(number, width) {
  return rect(LEFT, HEAD + number * LANE, width - LEFT, LANE - 1, { class: "lane" });
}

// The names of the lanes, which stay where they are when the lanes are scrolled.
function laneNames(play, lanes, height) {
  const names = lanes.map((thread, number) => text(NAMES_WIDTH - 6, HEAD + number * LANE + LANE - 9, `thread ${thread}`, { class: "name" }));
  names.forEach((name, number) => name.append(svg("title", {}, `phase ${phaseOf(play, lanes[number])}`)));
  return picture(NAMES_WIDTH, height, `Threads ${lanes.join(", ")}`, ...names);
}

// A line wherever a phase ends and the next begins.
function phaseEnds(threads, phases, height) {
  const ends = threads.flatMap((thread, number) => (number && phases(thread) !== phases(threads[number - 1]) ? [LEFT + number * STEP] : []));
  return ends.map((x) => svg("line", { x1: x, x2: x, y1: HEAD - 8, y2: height, class: "phase" }));
}

function sentence(threads) {
  return `The order of the threads' steps: ${threads.join(" ") || "none"}.`;
}

// The words below the lanes: which part of the history they show, and what the letters mean.
function note(first, end, all, left) {
  const part = end - first < all ? `Entries ${shown(first + 1)} to ${shown(end)} of ${shown(all)}, around the slider. ` : "";
  const commands = left ? `${counted(left, "command is", "commands are")} left out. ` : "";
  return html("p", { class: "hint" }, part + commands + LEGEND);
}

// Draws the lanes of the threads that take part around a moment.
export function drawLanes(play, at, into, moveTo) {
  const { first, end } = partAround(play.history, at), { list: events, left } = new Events(play, first, end);
  const threads = events.map((event) => shownEvent(play, event).thread), x = cursorOf(events, at);
  const lanes = [...new Set(threads)].sort((one, other) => one - other);
  const width = LEFT + Math.max(1, events.length) * STEP + 8, height = HEAD + lanes.length * LANE + 4;
  const drawn = picture(width, height, sentence(threads), ...lanes.map((_, number) => lane(number, width)),
    ...phaseEnds(threads, (thread) => phaseOf(play, thread), height),
    ...events.map((event, number) => drawEvent(play, event, number, lanes, moveTo)), cursor(x, height));
  const box = scrolled("Threads", drawn);
  into.replaceChildren(html("div", { class: "lanes" }, laneNames(play, lanes, height), box), note(first, end, play.history.length, left));
  box.scrollLeft = x - box.clientWidth / 2;
}
