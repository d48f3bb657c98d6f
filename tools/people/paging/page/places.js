// The places of all caches: which line stands in each, who filled it, and under which RMID.

const EMPTY = -1;

export class Places {
  constructor(machine) {
    this.machine = machine;
    this.size = machine.sets * machine.ways;
    this.owner = new Int32Array(machine.domains * this.size).fill(EMPTY);
    this.rmid = new Uint8Array(machine.domains * this.size);
    this.line = new Float64Array(machine.domains * this.size);
    const domains = Array.from({ length: machine.domains });
    // For each cache the lines of each group, those of each RMID, and for each way those of each group.
    this.byGroup = domains.map(() => new Map());
    this.byRmid = domains.map(() => new Map());
    this.byWay = domains.map(() => Array.from({ length: machine.ways }, () => new Map()));
  }

  copy() {
    const made = Object.assign(Object.create(Places.prototype), this);
    for (const name of ["owner", "rmid", "line"]) made[name] = this[name].slice();
    for (const name of ["byGroup", "byRmid"]) made[name] = this[name].map((counts) => new Map(counts));
    made.byWay = this.byWay.map((ways) => ways.map((counts) => new Map(counts)));
    return made;
  }

  at(domain, set, way) {
    return domain * this.size + set * this.machine.ways + way;
  }

  ownerAt(domain, set, way) {
    return this.owner[this.at(domain, set, way)];
  }

  lineAt(domain, set, way) {
    return this.line[this.at(domain, set, way)];
  }

  // Adds lines to all counts of a place's owner and RMID.
  count(domain, way, place, lines) {
    const owner = this.owner[place];
    add(this.byGroup[domain], owner, lines);
    add(this.byRmid[domain], this.rmid[place], lines);
    add(this.byWay[domain][way], owner, lines);
  }

  empty(domain, set, way) {
    const place = this.at(domain, set, way);
    if (this.owner[place] === EMPTY) return;
    this.count(domain, way, place, -1);
    this.owner[place] = EMPTY;
  }

  fill(domain, set, way, owner, rmid, line) {
    this.empty(domain, set, way);
    const place = this.at(domain, set, way);
    this.owner[place] = owner;
    this.rmid[place] = rmid;
    this.line[place] = line;
    this.count(domain, way, place, 1);
  }

  emptySlice(domain, slice) {
    for (let set = slice; set < this.machine.sets; set += this.machine.slices) {
      for (let way = 0; way < this.machine.ways; way += 1) this.empty(domain, set, way);
    }
  }

  // Empties a slice, and loads these ways of it with the lines of a region, which have RMID 0.
  lock(domain, slice, mask, owner, first) {
    this.emptySlice(domain, slice);
    waysOf(mask).forEach((way, number) => {
      for (let set = slice; set < this.machine.sets; set += this.machine.slices) {
        this.fill(domain, set, way, owner, 0, first + set + number * this.machine.sets);
      }
    });
  }
}

function add(counts, key, lines) {
  const sum = (counts.get(key) || 0) + lines;
  if (sum) counts.set(key, sum);
  else counts.delete(key);
}

// The ways of a mask, rising.
export function waysOf(mask) {
  const ways = [];
  for (let way = 0; way < 32; way += 1) {
    if ((mask >>> way) & 1) ways.push(way);
  }
  return ways;
}
