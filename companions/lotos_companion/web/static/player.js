// A recorded scenario in place of a server: the page plays it step by step, and asks nothing of a network.
import { tool } from "./tools.js";

/** What was recorded into this page, or nothing where it is that of a server. */
export function recorded() {
  const element = document.getElementById("scenario");
  return element ? JSON.parse(element.textContent) : null;
}

export class Player {
  constructor(scenario) {
    this.scenario = scenario;
    this.at = 0;
    this.clock = null;
  }

  /** Answers as a server does. */
  async call(name, given = {}) {
    const last = this.scenario.moments.length - 1;
    const ways = { undo: this.at - 1, redo: this.at + 1, go: given.place, first: 0, last };
    if (name === "step") return this.step(given, last);
    this.at = Math.max(0, Math.min(last, ways[name] ?? this.at));
    return this.view(name === "open");
  }

  step(given, last) {
    const next = this.scenario.places[this.at + 1];
    if (this.at < last && next.line.split(" ")[1] === `${given.number}`) {
      this.at += 1;
      return this.view();
    }
    return { note: "this page has one scenario: other entries are taken with lotos-web" };
  }

  view(isWhole = false) {
    const { places, lanes, moments, menus, sources, style, refusal } = this.scenario;
    const moment = moments[this.at];
    const isLast = this.at === moments.length - 1;
    return { ...(isWhole ? { sources, style, folder: "" } : {}), epoch: 1, known: 0, at: this.at, tip: places.length - 1, lanes,
      places, numbers: false, note: isLast && refusal ? refusal : "",
      sides: [{ ...moment, ...menus[moment.menu], differs: null, parted: null }] };
  }

  /** The buttons that play. */
  tools(move) {
    const play = tool("play", "Play", "A step each second", () => {
      clearInterval(this.clock);
      if (play.getAttribute("aria-pressed") === "true") { play.setAttribute("aria-pressed", "false"); return; }
      play.setAttribute("aria-pressed", "true");
      this.clock = setInterval(() => {
        if (this.at < this.scenario.moments.length - 1) move("redo");
        else { clearInterval(this.clock); play.setAttribute("aria-pressed", "false"); }
      }, 1000);
    });
    return [tool("first", "First", "The first state", () => move("first")), play,
      tool("last", "Last", "The last state", () => move("last"))];
  }
}
