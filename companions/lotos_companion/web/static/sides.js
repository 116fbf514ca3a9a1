// One specification: its menu, its source and its state, and where it differs from the first one.
import { make, visible } from "./elements.js";
import { MenuView } from "./menu.js";
import { SourceView } from "./source.js";
import { StateView } from "./state.js";

export class SideView {
  constructor(number, source, isMany, calls) {
    this.number = number;
    this.menu = new MenuView(number, source.file, { ...calls, look: (index) => this.look(index) });
    this.source = new SourceView(number, source);
    this.state = new StateView(source.file);
    this.difference = make("p", { class: "difference", role: "status", hidden: true });
    const title = isMany ? make("h2", { class: "file" }, visible(source.path)) : null;
    this.element = make("div", { class: "side" }, title, this.difference, this.menu.element, this.source.element,
      this.state.element);
  }

  show(model, number, next) {
    this.side = model.sides[number];
    const other = model.sides.length > 1 ? model.sides[number === 0 ? 1 : 0] : null;
    const others = new Set(other ? other.entries.map(bare) : []);
    const isApart = model.sides.some((it) => it.parted);
    this.menu.show(this.side, (line, name) => other !== null && !isApart && !others.has(bare([line, name])), number === 0 ? next : 0);
    this.state.show(this.side.rows, number === 0 ? model.lanes : this.side.lanes);
    this.look(-1);
    this.tellDifference(model);
  }

  /** Marks in the source what the entries stand for, and most what the looked at entry does. */
  look(index) {
    if (!this.side) return;
    const marks = this.side.taken.map(([begin, end]) => ({ begin, end, kind: "taken" }));
    this.side.marks.forEach((of, entry) => of.forEach(([begin, end]) => {
      marks.push({ begin, end, kind: entry === index ? "looked" : "possible" });
    }));
    const isMarked = marks.length > 0 || this.source.marks.length > 0;
    if (isMarked) this.source.show(marks, index >= 0 ? "looked" : "taken");
  }

  tellDifference(model) {
    const { parted, differs } = this.side;
    const number = (place) => model.path().length ? model.path(place).length : 0;
    const lines = [];
    if (differs === -1) lines.push("the menus differ first in this state");
    else if (differs > 0) lines.push(`the menus differ first before step ${number(differs)}`);
    if (parted) lines.push(`parts at step ${number(parted.place)}: ${parted.why}`);
    else if (this.number > 0 && !lines.length) lines.push("the same menus up to here");
    this.difference.replaceChildren(...lines.map((it) => make("span", {}, visible(it))));
    this.difference.classList.toggle("fault", Boolean(parted || differs));
    this.difference.hidden = !lines.length;
  }
}

function bare([line, name]) { return `${line.slice(line.indexOf(": ") + 2)}\n${name}`; }
