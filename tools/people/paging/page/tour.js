// Goes through a whole history once, keeps states to begin from, and samples for the curves.
import { pause } from "./entries.js";
import { State } from "./state.js";

// About how many samples the curves have, and how many bytes all kept states may take.
export const SAMPLES = 400;
const KEPT_BYTES = 64 * 2 ** 20;
const MOST_KEPT = 64;
const BYTES_OF_A_PLACE = 13;
// Milliseconds of work before the browser gets time to draw.
const PATIENCE = 12;

// How many entries lie between two states that are kept.
function distance(play) {
  const { domains, sets, ways } = play.machine;
  const count = Math.max(2, Math.min(MOST_KEPT, Math.floor(KEPT_BYTES / (domains * sets * ways * BYTES_OF_A_PLACE))));
  return Math.max(64, Math.ceil(play.history.length / count));
}

// The lines that each group holds in all caches, and its misses so far.
export function sampleOf(state) {
  const held = new Map();
  for (const counts of state.places.byGroup) {
    for (const [gid, lines] of counts) held.set(gid, (held.get(gid) || 0) + lines);
  }
  return { at: state.made, held, misses: new Map(state.misses) };
}

export class Tour {
  constructor(play) {
    this.play = play;
    this.distance = distance(play);
    this.every = Math.max(1, Math.ceil(play.history.length / SAMPLES));
    this.state = new State(play);
    this.kept = [this.state.copy()];
    this.samples = [sampleOf(this.state)];
  }

  // Goes to the end of the history, and says now and then how far it is. It stops early if it is told to.
  async go(progress) {
    let since = performance.now();
    while (this.state.made < this.play.history.length) {
      this.state.step();
      this.keep();
      if (performance.now() - since < PATIENCE) continue;
      if (progress(this.state.made) === false) return false;
      await pause();
      since = performance.now();
    }
    this.end = this.state.copy();
    return true;
  }

  keep() {
    const made = this.state.made;
    if (made % this.distance === 0) this.kept.push(this.state.copy());
    if (made % this.every === 0 || made === this.play.history.length) this.samples.push(sampleOf(this.state));
  }

  // The state after so many entries: from where it stands, or from the last kept one before it.
  at(made) {
    const nearest = this.kept[Math.min(this.kept.length - 1, Math.floor(made / this.distance))];
    if (this.state.made > made || this.state.made < nearest.made) this.state = nearest.copy();
    while (this.state.made < made) this.state.step();
    return this.state;
  }
}
