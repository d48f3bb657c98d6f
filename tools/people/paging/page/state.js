// The caches and the groups after so many entries of a history.
import { DROP, FILL, FLUSH, HIT, LOCK } from "./entries.js";
import { Groups } from "./groups.js";
import { Places } from "./places.js";

const LOCKING = /^write (.*)\/schemata /;

export class State {
  constructor(play) {
    this.play = play;
    this.places = new Places(play.machine);
    this.groups = new Groups(play.machine);
    // How many commands are taken, and how many entries of the history are made.
    this.taken = 0;
    this.made = 0;
    this.hits = new Map();
    this.misses = new Map();
    this.take(play.history.length ? 0 : Infinity);
  }

  copy() {
    const made = Object.assign(Object.create(State.prototype), this);
    made.places = this.places.copy();
    made.groups = this.groups.copy();
    made.hits = new Map(this.hits);
    made.misses = new Map(this.misses);
    return made;
  }

  // Goes on to the state after so many commands.
  take(count) {
    const commands = this.play.report.commands;
    for (; this.taken < Math.min(count, commands.length); this.taken += 1) {
      const command = commands[this.taken];
      if (command.result.startsWith("ok")) this.groups.apply(command.words);
    }
  }

  // Makes the next entry. After the last one come the commands that no entry knows of.
  step() {
    const history = this.play.history, row = history.rows[this.made];
    this.take(history.taken[this.made]);
    this.follow(row, history.taken[this.made]);
    this.made += 1;
    if (this.made === history.length) this.take(Infinity);
  }

  follow(row, taken) {
    const entries = this.play.history.entries, domain = entries.domain[row];
    switch (entries.kind[row]) {
      case HIT: case FILL: this.access(entries, row, domain, taken); break;
      case FLUSH: this.places.emptySlice(domain, entries.slice[row]); break;
      case LOCK: this.lock(entries, row, domain); break;
      case DROP: this.places.empty(domain, entries.line[row] % this.play.machine.sets, entries.way[row]); break;
      default: break;
    }
  }

  access(entries, row, domain, taken) {
    const gid = entries.gid[row], isHit = entries.kind[row] === HIT, counts = isHit ? this.hits : this.misses;
    counts.set(gid, (counts.get(gid) || 0) + 1);
    if (!isHit) this.places.fill(domain, entries.set[row], entries.way[row], gid, entries.rmid[row], entries.line[row]);
    // A tag of before may still come through another slice.
    if (entries.epoch[row] === taken) this.groups.seen(gid, domain, entries.mask[row]);
  }

  // A region belongs to the group whose mask the command wrote.
  lock(entries, row, domain) {
    const command = this.play.report.commands[entries.epoch[row] - 1];
    const gid = this.groups.at(LOCKING.exec(command.words)[1]).gid;
    this.places.lock(domain, entries.slice[row], entries.mask[row], gid, entries.line[row]);
  }
}
