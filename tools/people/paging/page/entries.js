// The entries of the histories of all slices, as columns of numbers.

// What an entry is.
export const HIT = 0, FILL = 1, RAISE = 2, FLUSH = 3, LOCK = 4, LOOK = 5, DROP = 6, DROP_NONE = 7;
export const NAMES = ["hit", "fill", "raise", "flush", "lock", "look", "drop", "drop"];
// The letters that stand for them in a picture.
export const LETTERS = ["h", "m", "r", "F", "L", "l", "d", "d"];

// After so many entries the browser gets time to draw.
export const CHUNK = 20000;

// Lets the browser draw and take what the user does.
export function pause() {
  return new Promise((done) => setTimeout(done, 0));
}

// Every entry of a report, a row each, slice by slice.
export class Entries {
  constructor(size) {
    this.size = size;
    for (const name of ["thread", "op", "epoch", "gid", "mask", "set"]) this[name] = new Uint32Array(size);
    for (const name of ["kind", "domain", "slice", "rmid", "way"]) this[name] = new Uint8Array(size);
    this.line = new Float64Array(size);
  }

  // Whether the entry of a row is an access.
  isAccess(row) {
    return this.kind[row] <= FILL;
  }

  // Reads an entry of a slice into a row. No epoch is shown as less than that of the entry before it.
  read(row, domain, slice, text) {
    const words = text.split(" ");
    const [thread, op] = words[1].split(".");
    this.domain[row] = domain;
    this.slice[row] = slice;
    this.thread[row] = Number(thread);
    this.op[row] = Number(op);
    this.epoch[row] = Number(words[2].slice(1));
    this.readKind(row, words);
  }

  readKind(row, words) {
    switch (words[3]) {
      case "access": return this.readAccess(row, words);
      case "raise": this.kind[row] = RAISE; break;
      case "flush": this.kind[row] = FLUSH; break;
      case "lock": this.readLock(row, words); break;
      case "look": this.readLook(row, words); break;
      case "drop": this.readDrop(row, words); break;
      default: throw new Error(`an entry of no known kind: ${words.join(" ")}`);
    }
  }

  // access group G rmid R mask M set S line L hit|fill way W
  readAccess(row, words) {
    this.kind[row] = words[14] === "hit" ? HIT : FILL;
    this.gid[row] = Number(words[5]);
    this.rmid[row] = Number(words[7]);
    this.mask[row] = parseInt(words[9], 16);
    this.set[row] = Number(words[11]);
    this.line[row] = Number(words[13]);
    this.way[row] = Number(words[16]);
  }

  // lock mask M first L
  readLock(row, words) {
    this.kind[row] = LOCK;
    this.mask[row] = parseInt(words[5], 16);
    this.line[row] = Number(words[7]);
  }

  // look rmid R lines N
  readLook(row, words) {
    this.kind[row] = LOOK;
    this.rmid[row] = Number(words[5]);
    this.line[row] = Number(words[7]);
  }

  // drop line L way W, or drop line L none
  readDrop(row, words) {
    this.kind[row] = words[6] === "none" ? DROP_NONE : DROP;
    this.line[row] = Number(words[5]);
    this.way[row] = words[6] === "none" ? 0 : Number(words[7]);
  }
}

// The entries of a report, with the row at which each slice ends.
export async function entriesOf(report) {
  const entries = new Entries(report.journal.reduce((sum, part) => sum + part.entries.length, 0));
  const ends = [];
  let row = 0;
  for (const part of report.journal) {
    for (const text of part.entries) {
      entries.read(row, part.domain, part.slice, text);
      row += 1;
      if (row % CHUNK === 0) await pause();
    }
    ends.push(row);
  }
  return { entries, ends };
}
