// The tree of all branches that were tried: a step a row, in the order in which they were tried; a row goes there.
import { make, visible } from "./elements.js";
import { WindowedList } from "./windowed.js";

export class BranchesView {
  constructor(go) {
    this.rows = [];
    this.list = new WindowedList("Branches: a step a row; Enter goes to the state behind it", (index) => this.row(index),
      (index) => go(this.rows[index].place), { role: "tree", key: (index) => this.key(index) });
  }

  show(model) {
    this.model = model;
    this.path = new Set(model.path());
    this.rows = rowsOf(model.places);
    const present = this.rows.findIndex((it) => it.place === model.at);
    this.list.set(this.rows.length, present, true);
  }

  /** What a row looks like depends on this alone. */
  key(index) {
    const { place, depth, forks } = this.rows[index];
    return [this.model.epoch, place, depth, forks, this.path.has(place), place === this.model.at].join(" ");
  }

  row(index) {
    const { place, depth, level, forks } = this.rows[index];
    const { label, name, called } = this.model.places[place];
    const kinds = ["branch", label === "i" ? "hidden" : "", this.path.has(place) || place === 0 ? "on-path" : "",
      place === this.model.at ? "here" : ""];
    const row = make("div", { class: kinds.filter(Boolean).join(" ") },
      make("span", { class: "number" }, `${level}`),
      make("span", { class: "label" }, place === 0 ? "first state" : visible(label)),
      called ? make("span", { class: "name", title: visible(name) }, ` (${visible(called === label ? name : called)})`) : null,
      forks > 1 ? make("span", { class: "forks", title: `${forks} branches from here` }, ` \u2442 ${forks}`) : null);
    row.style.paddingLeft = `${Math.min(depth, 24) * 16 + 6}px`;
    row.setAttribute("aria-level", depth + 1);
    if (place === this.model.at) row.setAttribute("aria-current", "step");
    return row;
  }
}

/** The places in the order of rows: a branch is indented, and the one that was tried first goes on below the others. */
export function rowsOf(places) {
  const children = places.map(() => []);
  places.forEach((it, number) => { if (it.parent >= 0) children[it.parent].push(number); });
  const rows = [];
  const waiting = [{ place: 0, depth: 0, level: 0 }];
  while (waiting.length) {
    const it = waiting.pop();
    const behind = children[it.place];
    rows.push({ ...it, forks: behind.length });
    behind.forEach((place, count) => waiting.push({ place, depth: it.depth + (count ? 1 : 0), level: it.level + 1 }));
  }
  return rows;
}
