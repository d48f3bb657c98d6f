// The control groups after some of the commands: their masks and modes, as the accepted commands tell them.
import { waysOf } from "./places.js";

const WRITE = /^write (.*)\/(schemata|mode) (.*)$/;
// A domain and its mask, in a text that was accepted.
const MASK = /(\d+)[ \t]*=[ \t]*(?:0[xX])?([0-9a-fA-F]+)/;

export class Group {
  constructor(gid, path, domains) {
    this.gid = gid;
    this.path = path;
    this.mode = "shareable";
    // The masks of a pseudo-locked group are null but for that of its region.
    this.masks = new Array(domains).fill(null);
    // Of a pseudo-locked group, the cache of its region.
    this.region = null;
  }

  copy() {
    return Object.assign(new Group(this.gid, this.path, 0), this, { masks: [...this.masks] });
  }

  // The ways of the group in a cache, or null. A pseudo-locked group has none but those of its region.
  waysIn(domain) {
    return this.region === null || this.region === domain ? this.masks[domain] : null;
  }
}

// The lowest run of adjacent ways of a mask.
function lowestRun(mask) {
  const ways = waysOf(mask), gap = ways.findIndex((way, number) => number && way !== ways[number - 1] + 1);
  return maskOf(gap < 0 ? ways : ways.slice(0, gap));
}

function maskOf(ways) {
  return ways.reduce((mask, way) => mask + 2 ** way, 0);
}

// The masks that an accepted text of schemata gives, each with its cache.
export function masksOf(text) {
  const lines = text.split("\\n").map((line) => line.slice(line.indexOf(":") + 1));
  const found = lines.join(";").split(";").map((entry) => MASK.exec(entry));
  return found.filter(Boolean).map((entry) => [Number(entry[1]), parseInt(entry[2], 16)]);
}

export class Groups {
  constructor(machine) {
    this.machine = machine;
    this.domains = machine.domains;
    this.made = 1;
    this.byPath = new Map([["/", new Group(0, "/", machine.domains)]]);
    this.byPath.get("/").masks.fill(2 ** machine.ways - 1);
  }

  copy() {
    const made = Object.assign(Object.create(Groups.prototype), this);
    made.byPath = new Map([...this.byPath].map(([path, group]) => [path, group.copy()]));
    return made;
  }

  get all() {
    return [...this.byPath.values()];
  }

  // The group of a directory, which ends in no slash.
  at(path) {
    return this.byPath.get(path || "/");
  }

  // What an accepted command does to the groups.
  apply(words) {
    const [word, path] = words.split(" ", 2);
    const isControl = path !== undefined && path.lastIndexOf("/") === 0;
    if (word === "mkdir" && isControl) this.make(path);
    else if (word === "rmdir" && isControl) this.byPath.delete(path);
    else if (word === "write") this.write(WRITE.exec(words));
  }

  make(path) {
    const group = new Group(this.made, path, this.domains);
    group.masks = group.masks.map((_, domain) => this.startIn(domain));
    this.byPath.set(path, group);
    this.made += 1;
  }

  // The ways with which a new group starts: those that no exclusive group and no region has, and of them a run, if masks have no gaps.
  startIn(domain) {
    const kept = this.all.filter((group) => group.mode === "exclusive" || group.mode === "pseudo-locked");
    const taken = kept.reduce((mask, group) => mask | group.waysIn(domain), 0);
    const free = ((2 ** this.machine.ways - 1) & ~taken) >>> 0;
    return this.machine.sparse ? free : lowestRun(free);
  }

  write(found) {
    const group = found && this.at(found[1]);
    if (!group) return;
    if (found[2] === "mode") group.mode = found[3].trim();
    else this.writeMasks(group, masksOf(found[3]));
  }

  writeMasks(group, masks) {
    for (const [domain, mask] of masks) group.masks[domain] = mask;
    if (group.mode !== "pseudo-locksetup" || !masks.length) return;
    group.mode = "pseudo-locked";
    group.region = masks[0][0];
    group.masks = group.masks.map((mask, domain) => (domain === group.region ? mask : null));
  }

  // An access tells the mask under which its group fills.
  seen(gid, domain, mask) {
    for (const group of this.byPath.values()) {
      if (group.gid !== gid) continue;
      group.masks[domain] = mask;
      return;
    }
  }
}
