// A play: the facts about its script, its report, and its history.
import { historyOf } from "./history.js";
import { Tour } from "./tour.js";

// The letter of the n-th group, and those of all that come after the 26th.
function letter(number) {
  return number < 26 ? String.fromCharCode(97 + number) : "+";
}

// Each group that ever was, by its number: its path, its letter, and the number of its colour and pattern.
function looksOf(report) {
  return new Map(report.groups.map((group, number) => [group.gid, { gid: group.gid, path: group.path, letter: letter(number), number }]));
}

export class Play {
  constructor(facts, text) {
    this.facts = facts;
    this.machine = facts.machine;
    this.text = text;
    this.report = JSON.parse(text);
    this.looks = looksOf(this.report);
  }

  // Reads the history, and goes through it. False says that it was told to stop.
  async read(progress) {
    this.history = await historyOf(this.report);
    this.tour = new Tour(this);
    return this.tour.go(progress);
  }

  look(gid) {
    return this.looks.get(gid);
  }

  // The line of the script that an op stands in, or 0. A sweep has many ops.
  lineOf(thread, op) {
    const run = (this.facts.ops[thread] || []).findLast(([first]) => first <= op);
    return run ? run[1] + Math.min(op - run[0], run[2] - 1) : 0;
  }
}
