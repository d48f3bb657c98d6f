// The page: a script on the left, and its play on the right.
import { byId, counted, html, shown } from "./drawing.js";
import { Editor } from "./editor.js";
import { examples, hasServer, inOrder, marksOf, played, playOfFile, start } from "./link.js";
import { Play } from "./play.js";
import { Result } from "./result.js";

// Milliseconds after the last key until a script is read for its marks.
const PATIENCE = 400;
// A script of more characters is read only when it is played.
const MOST_TYPED = 500000;
const FIRST = "mask_rewrite";

class Page {
  constructor() {
    this.editor = new Editor();
    // The number of the last play that was asked for, and a digest of the report of each run of the same script.
    this.latest = 0;
    this.runs = [];
  }

  get how() {
    return document.querySelector("input[name=how]:checked").value;
  }

  set how(how) {
    document.querySelector(`input[name=how][value=${how}]`).checked = true;
  }

  say(words) {
    byId("status").textContent = words;
  }

  // Shows a play of the facts and the report, if no later one was asked for.
  async show({ facts, report }, number) {
    if (!this.editor.isChanged) this.editor.show(facts.marks);
    if (!report) {
      byId("shown").hidden = true;
      this.say(`The script is invalid: ${facts.said}`);
      return;
    }
    const play = new Play(facts, report);
    const all = counted(play.report.journal.reduce((sum, part) => sum + part.entries.length, 0), "entry", "entries");
    const isDone = await play.read((made) => {
      this.say(`Reading ${shown(made)} of ${all} …`);
      return number === this.latest;
    });
    if (!isDone) return;
    new Result(play, this.editor).draw();
    if (facts.how === "run" && hasServer()) await this.countRun(report);
    byId("race").hidden = facts.how !== "run" || !hasServer();
    this.sayWhatWasPlayed(play, all);
  }

  // Counts the runs of a script, and how many of them gave another report than those before.
  async countRun(report) {
    const digest = new Uint8Array(await crypto.subtle.digest("SHA-256", new TextEncoder().encode(report)));
    this.runs.push(digest.join());
    const different = new Set(this.runs).size;
    byId("runs").textContent = `${counted(this.runs.length, "run")} of this script gave ${counted(different, "history", "different histories")}.`;
  }

  sayWhatWasPlayed(play, all) {
    const { commands, refused, accesses, hits } = play.report.total;
    const words = [`${counted(commands, "command")}, ${shown(refused)} refused`, `${counted(accesses, "access", "accesses")}, ${shown(hits)} hit`];
    this.say(`Played: ${words.join("; ")}; ${all} in the histories.`);
  }

  // Plays the script that stands in the editor.
  async play() {
    const number = this.latest += 1;
    this.say("Playing …");
    document.body.setAttribute("aria-busy", "true");
    try {
      const script = this.editor.text;
      this.editor.isChanged = false;
      const answer = await played(script, this.how);
      if (number !== this.latest) return;
      this.played = { script, report: answer.report };
      await this.show(answer, number);
    } catch (why) {
      if (number === this.latest) this.say(`There is no play: ${why.message}`);
    } finally {
      if (number === this.latest) document.body.removeAttribute("aria-busy");
    }
  }

  // Puts the order of the last run into the script, and plays it step by step: the histories are the same.
  async replay() {
    try {
      this.editor.text = await inOrder(this.played.script, this.played.report);
    } catch (why) {
      this.say(`There is no order: ${why.message}`);
      return undefined;
    }
    this.how = "step";
    this.chooseNone();
    return this.playAnew();
  }

  // The script is none of the examples.
  chooseNone() {
    byId("example").value = "";
    byId("about").textContent = "";
  }

  playAnew() {
    this.runs = [];
    return this.play();
  }

  // Reads the script for its marks when nothing was typed for a while.
  readSoon() {
    clearTimeout(this.timer);
    this.runs = [];
    this.timer = setTimeout(() => this.readMarks(), PATIENCE);
  }

  async readMarks() {
    const script = this.editor.text, number = this.latest;
    if (script.length > MOST_TYPED) return;
    const marks = await marksOf(script).catch(() => []);
    if (script === this.editor.text && number === this.latest) this.editor.show(marks);
  }

  choose(example) {
    byId("about").textContent = example.about;
    this.editor.text = example.text;
    this.how = example.how;
    return this.playAnew();
  }

  offer(offered) {
    const list = byId("example");
    list.append(html("option", { value: "" }, "(a script of your own)"), ...offered.map(({ name }) => html("option", { value: name }, name)));
    list.onchange = () => {
      const chosen = offered.find(({ name }) => name === list.value);
      if (chosen) this.choose(chosen);
    };
    this.editor.area.addEventListener("input", () => {
      this.chooseNone();
      this.say("The script has changed since it was played.");
      this.readSoon();
    });
  }

  listen() {
    byId("play").onclick = () => this.playAnew();
    byId("again").onclick = () => this.play();
    byId("replay").onclick = () => this.replay();
    document.addEventListener("keydown", (event) => {
      if (event.ctrlKey && event.key === "Enter") this.playAnew();
    });
  }

  // Shows the play that the file holds. There is nothing to play it again.
  async openFile() {
    const { script, how } = await start();
    for (const name of ["chooser", "play", "play-hint"]) byId(name).hidden = true;
    byId("how").disabled = true;
    this.editor.area.readOnly = true;
    this.editor.text = script;
    this.how = how;
    byId("about").textContent = "A play that was saved. Its script cannot be changed here.";
    await this.show(playOfFile(), this.latest);
  }

  async open() {
    if (!hasServer()) return this.openFile();
    this.listen();
    const offered = await examples(), { script, how } = await start();
    this.offer(offered);
    if (script === null) {
      const first = offered.find(({ name }) => name === FIRST) || offered[0];
      if (!first) return undefined;
      byId("example").value = first.name;
      return this.choose(first);
    }
    this.editor.text = script;
    this.how = how;
    return this.playAnew();
  }
}

new Page().open().catch((why) => {
  byId("status").textContent = `The page cannot go on: ${why.message}`;
});
