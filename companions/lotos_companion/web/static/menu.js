// The menu: an entry a row. One that asks for values opens a choice of them.
import { make, visible } from "./elements.js";
import { readEntry } from "./model.js";
import { WindowedList } from "./windowed.js";

export class MenuView {
  /** `take(number, values)` takes an entry, `fitting(number, most)` finds values, `look(index)` tells which row is looked at. */
  constructor(number, file, { take, fitting, look }) {
    this.take = take;
    this.fitting = fitting;
    this.entries = [];
    this.only = () => false;
    this.list = new WindowedList(`Menu of ${file}`, (index) => this.row(index), (index) => this.chosen(index), { look });
    this.list.element.id = `menu-${number}`;
    this.head = make("span", { class: "count" });
    this.choice = make("div", { class: "choice", hidden: true });
    this.element = make("section", { class: "part menu", "aria-label": `Menu of ${file}` },
      make("h2", {}, "Menu ", this.head), this.list.element, this.choice);
  }

  /** Shows a menu. `only` tells which entries the other specification has not; `next` is the entry of a step to redo. */
  show(side, only, next) {
    this.entries = side.entries;
    this.only = only;
    this.next = next;
    this.head.textContent = side.head;
    this.head.classList.toggle("fault", side.entries.length === 0);
    this.close();
    this.list.element.scrollTop = 0;
    this.list.set(side.entries.length, side.entries.length ? 0 : -1);
  }

  row(index) {
    const [line, name] = this.entries[index];
    const entry = readEntry(line);
    const kinds = ["entry", entry.label === "i" ? "hidden" : "", this.only(line, name) ? "only" : "",
      entry.number === this.next ? "next" : ""];
    return make("div", { class: kinds.filter(Boolean).join(" ") },
      make("span", { class: "number" }, `${entry.number}`), " ",
      make("span", { class: "label" }, visible(entry.label)),
      name ? make("span", { class: "name" }, ` (${visible(name)})`) : null,
      entry.behind ? make("span", { class: "behind" }, visible(entry.behind)) : null);
  }

  chosen(index) {
    const entry = readEntry(this.entries[index][0]);
    if (entry.sorts.length) this.open(entry);
    else this.take(entry.number, "");
  }

  /** Opens the choice of values of an entry. */
  async open(entry) {
    const inputs = entry.sorts.map((sort, place) => make("input", { type: "text", spellcheck: "false", autocomplete: "off",
      "aria-label": `$${place + 1}, a value of the sort ${sort}`, placeholder: `$${place + 1}: ${sort}` }));
    const said = make("p", { class: "said", role: "status" });
    const found = make("div", { class: "values", role: "group", "aria-label": "Values that fit" }, "looking for values that fit ..");
    const form = make("form", { class: "typed", onsubmit: (event) => { event.preventDefault(); this.send(entry, inputs, said); } },
      ...inputs, make("button", { type: "submit" }, "Take"),
      make("button", { type: "button", onclick: () => this.close(true) }, "Close"));
    this.choice.replaceChildren(make("h3", {}, visible(`${entry.label}${entry.behind}`)), found, form, said);
    this.choice.onkeydown = (event) => { if (event.key === "Escape") this.close(true); };
    this.choice.hidden = false;
    this.choice.scrollIntoView({ block: "nearest" });
    inputs[0].focus();
    await this.find(entry, found, inputs, 12);
  }

  async find(entry, found, inputs, most) {
    const answer = await this.fitting(entry.number, most);
    const buttons = answer.values.map((values) => make("button", { type: "button", class: "value",
      onclick: () => this.take(entry.number, values.join(", ")) }, visible(values.join(", "))));
    if (!buttons.length) found.replaceChildren("no small value was found that fits: type one");
    else found.replaceChildren(...buttons);
    if (!answer.isAll && buttons.length >= most) {
      found.append(make("button", { type: "button", class: "more", onclick: () => this.find(entry, found, inputs, most * 4) }, "more"));
    }
  }

  async send(entry, inputs, said) {
    const values = inputs.map((it) => it.value.trim());
    const answer = await this.take(entry.number, values.join(", "));
    if (answer && !answer.taken) said.textContent = visible(answer.said.join("\n"));
  }

  close(focus = false) {
    this.choice.hidden = true;
    this.choice.replaceChildren();
    if (focus) this.list.element.focus();
  }
}
