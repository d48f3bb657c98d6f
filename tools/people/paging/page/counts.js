// What a history gives by itself, beside what the report counts. They have to agree.
import { HIT, LOOK } from "./entries.js";
import { Groups, masksOf } from "./groups.js";
import { Play } from "./play.js";
import { State } from "./state.js";
import { sampleOf } from "./tour.js";
import { letterOf } from "./usage.js";

// Of the samples each of so many is looked at again.
const SOME = 7;

function rmidsOf(places, domain) {
  const counts = [...places.byRmid[domain]].sort(([one], [other]) => one - other);
  return counts.map(([rmid, lines]) => ({ lines, rmid }));
}

// Where the state at the end has other counts than the report.
function differencesAtTheEnd(state, report) {
  const found = [];
  const compare = (what, seen, wanted) => {
    if (JSON.stringify(seen) !== JSON.stringify(wanted)) found.push(`${what}: ${JSON.stringify(seen)}, and not ${JSON.stringify(wanted)}`);
  };
  for (const group of report.groups) {
    compare(`hits of ${group.path}`, state.hits.get(group.gid) || 0, group.hits);
    compare(`misses of ${group.path}`, state.misses.get(group.gid) || 0, group.misses);
  }
  for (const domain of report.domains) {
    compare(`RMIDs of cache ${domain.domain}`, rmidsOf(state.places, domain.domain), domain.rmids);
    const held = [...state.places.byGroup[domain.domain].values()].reduce((sum, lines) => sum + lines, 0);
    compare(`lines of cache ${domain.domain}`, held, domain.valid);
  }
  return found;
}

// A hit is on a line that stands in its place.
function differenceAtAHit(state, row) {
  const entries = state.play.history.entries;
  if (entries.kind[row] !== HIT) return [];
  const [domain, set, way] = [entries.domain[row], entries.set[row], entries.way[row]], isHeld = state.places.ownerAt(domain, set, way) >= 0;
  const isThere = isHeld && state.places.lineAt(domain, set, way) === entries.line[row];
  return isThere ? [] : [`entry ${state.made}: line ${entries.line[row]} is not in way ${way} of set ${set}`];
}

// How many lines of an RMID stand in a slice. In a large cache of one slice the places count them by themselves.
function linesIn(places, domain, slice, rmid) {
  const { sets, ways, slices } = places.machine;
  if (slices === 1) return places.byRmid[domain].get(rmid) || 0;
  let lines = 0;
  for (let set = slice; set < sets; set += slices) {
    for (let place = places.at(domain, set, 0); place < places.at(domain, set, ways); place += 1) {
      if (places.owner[place] >= 0 && places.rmid[place] === rmid) lines += 1;
    }
  }
  return lines;
}

// A look counts the lines of an RMID in a slice.
function differenceAtALook(state, row) {
  const entries = state.play.history.entries, rmid = entries.rmid[row];
  if (entries.kind[row] !== LOOK) return [];
  const lines = linesIn(state.places, entries.domain[row], entries.slice[row], rmid);
  return lines === entries.line[row] ? [] : [`entry ${state.made}: ${lines} lines of RMID ${rmid}, and not ${entries.line[row]}`];
}

// The masks of a group as its file shows them.
function masksText(groups, path) {
  const group = groups.at(path), shown = group.masks.flatMap((mask, domain) => (mask === null ? [] : [[domain, mask]]));
  return JSON.stringify(shown);
}

// The letters of all ways as `bit_usage` shows them.
function lettersText(machine, groups) {
  const letter = (domain, way) => letterOf(groups.all, domain, way, machine.shareable);
  const letters = (domain) => Array.from({ length: machine.ways }, (_, number) => letter(domain, machine.ways - 1 - number)).join("");
  return Array.from({ length: machine.domains }, (_, domain) => `${domain}=${letters(domain)}`).join(";");
}

// Where the masks and letters of the pictures are not those that a command has read.
function differencesOfReads(play) {
  const groups = new Groups(play.machine), found = [];
  const compare = (command, seen, wanted) => {
    if (seen !== wanted) found.push(`command ${command.at} ${command.words}: ${seen}, and not ${wanted}`);
  };
  for (const command of play.report.commands.filter((one) => one.result.startsWith("ok"))) {
    const schemata = /^read (.*)\/schemata$/.exec(command.words);
    if (schemata) compare(command, masksText(groups, schemata[1]), JSON.stringify(masksOf(command.text.join("\\n"))));
    if (command.words === "read /info/L3/bit_usage") compare(command, lettersText(play.machine, groups), command.text[0]);
    groups.apply(command.words);
  }
  return found;
}

// Where a thread's entries are in another order than its ops, those of commands in another order than the commands, or an access of an
// epoch before what begins the epoch.
function differencesOfOrder({ entries, rows }) {
  const found = [], ops = new Map();
  let commands = 0, accesses = -1;
  for (const row of rows) {
    const thread = entries.thread[row], op = entries.op[row], epoch = entries.epoch[row], isAccess = entries.isAccess(row);
    const begins = !isAccess && entries.kind[row] !== LOOK && epoch <= accesses;
    if (op < (ops.get(thread) || 0)) found.push(`op ${thread}.${op} comes after a later one of its thread`);
    if (begins || (!isAccess && epoch < commands)) found.push(`an entry of op ${thread}.${op} comes too late`);
    ops.set(thread, op);
    if (isAccess) accesses = Math.max(accesses, epoch);
    else commands = epoch;
  }
  return found;
}

// Where a moment that is reached from later ones has other counts than when it was passed.
function differencesOfMoments(tour) {
  const text = ({ held, misses }) => JSON.stringify([[...held].sort(), [...misses].sort()]);
  const samples = tour.samples.filter((_, number) => number % SOME === 0).reverse();
  const moved = samples.filter((sample) => text(sampleOf(tour.at(sample.at))) !== text(sample));
  return moved.map((sample) => `moment ${sample.at} is another when it is reached from a later one`);
}

// Each difference between a play's pictures and its report, in words.
export async function differences(facts, text) {
  const play = new Play(facts, text);
  await play.read(() => true);
  const state = new State(play), found = [];
  while (state.made < play.history.length) {
    const row = play.history.rows[state.made];
    found.push(...differenceAtAHit(state, row), ...differenceAtALook(state, row));
    state.step();
  }
  found.push(...differencesOfReads(play), ...differencesOfOrder(play.history), ...differencesOfMoments(play.tour));
  return [...found, ...differencesAtTheEnd(state, play.report), ...differencesAtTheEnd(play.tour.end, play.report)];
}
