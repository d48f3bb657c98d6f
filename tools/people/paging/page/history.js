// One history of all slices: their entries in an order that each slice, each thread and the epochs agree with.
import { CHUNK, LOOK, entriesOf, pause } from "./entries.js";

// For each thread the ops of its entries, rising, and how many of them stand in the history so far.
class Threads {
  constructor(entries) {
    const ops = new Map();
    for (let row = 0; row < entries.size; row += 1) {
      if (!ops.has(entries.thread[row])) ops.set(entries.thread[row], []);
      ops.get(entries.thread[row]).push(entries.op[row]);
    }
    this.ops = new Map([...ops].map(([thread, list]) => [thread, Uint32Array.from(list).sort()]));
    this.next = new Map([...ops.keys()].map((thread) => [thread, 0]));
  }

  // Whether no earlier op of its thread is still to come.
  mayCome(thread, op) {
    return this.ops.get(thread)[this.next.get(thread)] === op;
  }

  take(thread) {
    this.next.set(thread, this.next.get(thread) + 1);
  }
}

// What comes first of two entries that nothing else puts in order: that of an earlier epoch, and of one epoch what a command makes.
function rankOf(entries, row) {
  return 2 * entries.epoch[row] + (entries.isAccess(row) || entries.kind[row] === LOOK ? 1 : 0);
}

// Of the slices' next entries the first one that its thread agrees with.
function chosen(entries, threads, heads, ends) {
  let best = -1, least = Infinity, any = -1;
  for (let part = 0; part < ends.length; part += 1) {
    const row = heads[part];
    if (row === ends[part]) continue;
    if (any < 0) any = part;
    if (rankOf(entries, row) < least && threads.mayCome(entries.thread[row], entries.op[row])) {
      best = part;
      least = rankOf(entries, row);
    }
  }
  return best < 0 ? any : best;
}

// The rows in the order of the one history.
async function merged(entries, ends) {
  const threads = new Threads(entries);
  const heads = ends.map((_, part) => (part ? ends[part - 1] : 0));
  const rows = new Uint32Array(entries.size);
  for (let at = 0; at < rows.length; at += 1) {
    const part = chosen(entries, threads, heads, ends);
    rows[at] = heads[part];
    threads.take(entries.thread[heads[part]]);
    heads[part] += 1;
    if (at % CHUNK === CHUNK - 1) await pause();
  }
  return rows;
}

// How many commands the tree has taken before each entry, and itself where it is what follows from one.
function takenBefore(entries, rows) {
  const taken = new Uint32Array(rows.length);
  let latest = 0;
  for (let at = 0; at < rows.length; at += 1) {
    latest = Math.max(latest, entries.epoch[rows[at]]);
    taken[at] = latest;
  }
  return taken;
}

// A history: its length, the row of each of its entries, and the commands taken by then.
export class History {
  constructor(entries, ends, rows) {
    this.entries = entries;
    this.ends = ends;
    this.rows = rows;
    this.taken = takenBefore(entries, this.rows);
    this.length = this.rows.length;
  }

  // The slice of the report's journal that a row belongs to, and where it stands there.
  originOf(row) {
    const part = this.ends.findIndex((end) => row < end);
    return { part, position: row - (part ? this.ends[part - 1] : 0) };
  }

  // The number of entries before the first one that knows of a command.
  placeOf(command) {
    let low = 0, high = this.length;
    while (low < high) {
      const middle = (low + high) >> 1;
      if (this.taken[middle] > command) high = middle;
      else low = middle + 1;
    }
    return low;
  }
}

export async function historyOf(report) {
  const { entries, ends } = await entriesOf(report);
  return new History(entries, ends, await merged(entries, ends));
}
