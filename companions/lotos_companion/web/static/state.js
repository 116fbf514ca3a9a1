// The components of a state as a tree, with what moved in the last step marked.
import { make, visible } from "./elements.js";
import { WindowedList } from "./windowed.js";

export class StateView {
  constructor(file) {
    this.rows = [];
    this.list = new WindowedList(`Components of the state of ${file}`, (index) => this.row(index), () => {}, { role: "tree" });
    this.element = make("section", { class: "part state", "aria-label": `State of ${file}` }, make("h2", {}, "State"),
      this.list.element);
  }

  show(rows, lanes) {
    this.rows = rows;
    this.lanes = lanes;
    this.list.set(rows.length);
  }

  row(index) {
    const { depth, text, lane, moved } = this.rows[index];
    const name = lane >= 0 ? this.lanes[lane] : "";
    const row = make("div", { class: `part-of-state ${lane >= 0 ? "component" : "operator"}${moved ? " moved" : ""}` },
      make("span", { class: "sign", "aria-hidden": "true" }, moved ? "\u25cf" : ""),
      name ? make("span", { class: "name" }, visible(name)) : null,
      make("span", { class: "text" }, visible(text)));
    row.style.paddingLeft = `${Math.min(depth, 20) * 16 + 6}px`;
    row.setAttribute("aria-level", depth + 1);
    if (moved) row.setAttribute("aria-description", "moved in the last step");
    return row;
  }
}
