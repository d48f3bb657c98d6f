// The counts of the groups, and the answers of the commands.
import { html, scrolled, shown } from "./drawing.js";
import { swatch } from "./looks.js";

const MOST = 300;
const MOST_GROUPS = 64;

function row(cells, kind = "td") {
  return html("tr", {}, ...cells.map((cell) => html(kind, kind === "th" ? { scope: "col" } : {}, cell)));
}

function table(heads, rows) {
  return html("table", {}, html("thead", {}, row(heads, "th")), html("tbody", {}, ...rows));
}

function ratio(group) {
  return group.accesses ? `${(100 * group.misses / group.accesses).toFixed(1)} %` : "";
}

// A table of the groups with their letters: the legend of all pictures.
export function drawGroups(play, into) {
  const groups = play.report.groups.slice(0, MOST_GROUPS);
  const rows = groups.map((group) => {
    const name = html("span", {}, swatch(play.look(group.gid)), ` ${group.path}`);
    return row([name, shown(group.accesses), shown(group.hits), shown(group.misses), ratio(group)]);
  });
  const drawn = scrolled("Groups", table(["group", "accesses", "hits", "misses", "miss ratio"], rows));
  into.replaceChildren(drawn, ...more(groups.length, play.report.groups.length, "groups"));
}

function more(drawn, all, what) {
  return drawn < all ? [html("p", { class: "hint" }, `The first ${shown(drawn)} of ${shown(all)} ${what} are shown.`)] : [];
}

// A command with its answer, and a button that moves to the entry after it.
function answer(play, command, moveTo) {
  const isOk = command.result.startsWith("ok"), goal = play.history.placeOf(command.at);
  const button = html("button", { type: "button", class: "link", "aria-label": `Go to command ${command.at}` }, `${command.at}`);
  button.addEventListener("click", () => moveTo(goal));
  const text = command.text ? html("pre", {}, command.text.join("\n") || "(empty)") : "";
  const result = html("span", { class: isOk ? "ok" : "refused" }, isOk ? command.result : `✗ ${command.result}`);
  const made = row([button, `${command.thread}.${command.op}`, html("code", {}, command.words), html("div", {}, result, text)]);
  made.id = `command-${command.at}`;
  return made;
}

// Draws the answers, and returns what marks the last command of a moment.
export function drawAnswers(play, into, moveTo) {
  const commands = play.report.commands.slice(0, MOST);
  if (!commands.length) {
    into.replaceChildren(html("p", { class: "hint" }, "The script has no command."));
    return () => {};
  }
  const rows = commands.map((command) => answer(play, command, moveTo));
  const drawn = scrolled("Answers", table(["", "thread.op", "command", "answer"], rows), "scroll tall");
  into.replaceChildren(drawn, ...more(commands.length, play.report.commands.length, "answers"));
  let marked = null;
  return (taken) => {
    if (marked) marked.removeAttribute("aria-current");
    marked = rows[taken - 1] || null;
    if (!marked) return;
    marked.setAttribute("aria-current", "step");
    drawn.scrollTop = marked.offsetTop - drawn.clientHeight / 2;
  };
}
