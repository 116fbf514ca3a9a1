// The message sequence chart: a line for each component, a bar across those that take part in an event, and an arrow only
// from one that offers a value to one that takes it.
import { draw, make, visible } from "./elements.js";
import { WindowedList } from "./windowed.js";

const ROW = 36;
const HEAD = 34;
const NUMBERS = 46;
const LETTER = 7.3;

/** Where the lines stand, for names of these components. */
export function layout(lanes) {
  const longest = Math.max(4, ...lanes.map((it) => Math.min(it.length, 24)));
  const space = Math.max(96, longest * LETTER + 26);
  return { x: (lane) => NUMBERS + space * (lane + 0.5), width: NUMBERS + space * Math.max(lanes.length, 1), space };
}

/** The names above the lines. */
export function headPicture(lanes, at) {
  return lanes.map((name, lane) => draw("g", {}, draw("title", {}, visible(name)),
    draw("rect", { class: "box", x: at.x(lane) - at.space / 2 + 6, y: 4, width: at.space - 12, height: 24, rx: 4 }),
    draw("text", { class: "lane-name", x: at.x(lane), y: 20, "text-anchor": "middle" }, visible(cut(name, 24)))));
}

/** A step: the pieces of the lines beside it, its bar with blocks and arrows, its number and its label. */
export function rowPicture(place, before, number, lanes, at) {
  const there = new Set([...(before?.there ?? []), ...place.there]);
  const lines = lanes.map((_, lane) => there.has(lane)
    ? draw("line", { class: "life", x1: at.x(lane), y1: 0, x2: at.x(lane), y2: ROW }) : null);
  const hidden = place.label === "i" ? " hidden" : "";
  const xs = place.lanes.map(at.x);
  const [left, right] = [Math.min(...xs), Math.max(...xs)];
  const parts = [draw("title", {}, visible(`step ${number}: ${place.label}${place.name ? ` (${place.name})` : ""}`))];
  if (left < right) parts.push(draw("line", { class: `bar${hidden}`, x1: left, y1: 25, x2: right, y2: 25 }));
  for (const x of xs) parts.push(draw("rect", { class: `block${hidden}`, x: x - 5, y: 20, width: 10, height: 10, rx: 2 }));
  for (const [from, to] of place.arrows) parts.push(arrow(at.x(from), at.x(to), hidden));
  parts.push(draw("text", { class: "step-number", x: NUMBERS - 12, y: 29, "text-anchor": "end" }, `${number}`),
    draw("text", { class: `step-label${hidden}`, x: left - 5, y: 15 }, visible(cut(whole(place), 90))));
  return [...lines, draw("g", { class: "event" }, ...parts)];
}

function arrow(from, to, hidden) {
  const way = Math.sign(to - from);
  const tip = to - way * 6;
  return draw("path", { class: `arrow${hidden}`, d: `M${tip} 25 L${tip - way * 11} 19 L${tip - way * 11} 31 Z` });
}

function whole(place) { return place.called || place.label; }
function cut(text, most) { return text.length <= most ? text : `${text.slice(0, most - 1)}\u2026`; }

export class ChartView {
  /** `go(place)` goes to a place. */
  constructor(go) {
    this.head = make("div", { class: "lanes" });
    this.list = new WindowedList("Chart: a step a row; Enter goes to the state behind it", (index) => this.row(index),
      (index) => go(this.steps[index]), { height: ROW, head: this.head, key: (index) => this.key(index) });
    this.list.element.classList.add("chart");
    this.steps = [];
  }

  /** Shows all steps of the branch; those behind the present state are pale. */
  show(model) {
    this.model = model;
    this.steps = model.steps;
    this.at = layout(model.lanes);
    this.done = model.path().length;
    const more = Math.max(0, ...this.steps.map((it) => this.labelEnd(it)));
    this.width = Math.max(this.at.width, more) + 12;
    this.head.replaceChildren(draw("svg", { width: this.width, height: HEAD, "aria-hidden": "true" },
      ...headPicture(model.lanes, this.at)));
    this.list.space.style.minWidth = `${this.width}px`;
    this.list.set(this.steps.length, this.done - 1, true);
  }

  labelEnd(number) {
    const place = this.model.places[number];
    return Math.min(...place.lanes.map(this.at.x)) + Math.min(whole(place).length, 90) * LETTER;
  }

  /** What a row looks like depends on this alone. */
  key(index) {
    return [this.model.epoch, this.steps[index], index < this.done, index === this.done - 1, this.differs(index), this.width,
      this.model.lanes.length].join(" ");
  }

  differs(index) {
    return this.model.sides.some((it) => it.differs === this.steps[index] || it.parted?.place === this.steps[index]);
  }

  row(index) {
    const place = this.model.places[this.steps[index]];
    const before = this.model.places[place.parent];
    const differs = this.differs(index);
    const row = make("div", { class: `step${index >= this.done ? " undone" : ""}${differs ? " differs" : ""}`,
      "aria-label": visible(`step ${index + 1}: ${whole(place)}; ${place.lanes.map((it) => this.model.lanes[it]).join(", ")}`) },
    draw("svg", { width: this.width, height: ROW, "aria-hidden": "true" },
      ...rowPicture(place, before, index + 1, this.model.lanes, this.at)));
    if (index === this.done - 1) row.classList.add("here");
    return row;
  }

  /** The whole chart as the text of a picture that stands alone. */
  picture() {
    const { model, at, width } = this;
    const height = HEAD + ROW * this.steps.length + 12;
    const picture = draw("svg", { xmlns: "http://www.w3.org/2000/svg", width, height, viewBox: `0 0 ${width} ${height}`,
      role: "img", class: "picture" }, draw("title", {}, visible(`${model.name}: ${this.steps.length} steps`)),
    draw("style", {}, model.style), draw("rect", { class: "paper", width, height }), ...headPicture(model.lanes, at));
    this.steps.forEach((number, index) => {
      const place = model.places[number];
      picture.append(draw("g", { transform: `translate(0 ${HEAD + ROW * index})` },
        ...rowPicture(place, model.places[place.parent], index + 1, model.lanes, at)));
    });
    return { text: new XMLSerializer().serializeToString(picture), width, height };
  }
}
