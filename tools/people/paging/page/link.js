// What the page asks of its server. In a page of one file there is no server, and the one play is in the file.
import { byId } from "./drawing.js";

function held(name) {
  const element = byId(name);
  return element ? element.textContent : null;
}

export function hasServer() {
  return held("report") === null;
}

// The play that this file holds, as facts and a report.
export function playOfFile() {
  return { facts: JSON.parse(held("facts")), report: held("report") };
}

async function asked(name, body) {
  const options = body && { method: "POST", headers: { "Content-Type": "application/json" }, body: JSON.stringify(body) };
  const answer = await fetch(name, options);
  const text = await answer.text();
  if (!answer.ok) throw new Error(text.trim());
  return text;
}

// The script that the page begins with, and how it is played.
export async function start() {
  return JSON.parse(held("start") || await asked("start"));
}

export async function examples() {
  return JSON.parse(await asked("examples"));
}

// The marks of a script, without a play of it.
export async function marksOf(script) {
  return JSON.parse(await asked("marks", { script }));
}

// A play: the facts, and the report as the program wrote it, which is empty if the script is invalid.
export async function played(script, how) {
  const text = await asked("play", { script, how }), end = text.indexOf("\n");
  return { facts: JSON.parse(text.slice(0, end)), report: text.slice(end + 1).trimEnd() };
}

// The script with the order lines with which `step` plays it as a run did.
export async function inOrder(script, report) {
  return JSON.parse(await asked("order", { script, report })).script;
}
