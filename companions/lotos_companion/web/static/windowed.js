// A list of which only the rows that are seen are made, so that thousands of entries stay smooth.
import { make } from "./elements.js";

const SPARE = 8;
// Shorter lists are made whole: their rows may have several lines.
const WHOLE = 150;

export class WindowedList {
  /** `row(index)` makes what stands in a row, which is kept for rows of the same `key(index)`; `choose(index)` is called where one is clicked, or Enter is typed on it. */
  constructor(label, row, choose, { role = "listbox", look = () => {}, height = 24, head = null, key = null } = {}) {
    this.key = key;
    this.pool = new Map();
    this.height = height;
    this.head = head;
    this.row = row;
    this.choose = choose;
    this.look = look;
    this.count = 0;
    this.present = -1;
    this.option = role === "tree" ? "treeitem" : "option";
    this.rows = make("div", { class: "rows" });
    this.space = make("div", { class: "space" }, this.rows);
    this.element = make("div", { class: "list", role, tabindex: "0", "aria-label": label,
      onscroll: () => this.draw(), onkeydown: (event) => this.typed(event), onfocus: () => this.mark() }, head, this.space);
    this.name = `list-${WindowedList.made = (WindowedList.made || 0) + 1}`;
    new ResizeObserver(() => { this.draw(); this.reveal(this.present); }).observe(this.element);
  }

  get isWhole() { return this.count <= WHOLE; }

  /** Shows so many rows anew; `reveal` is whether the present one is to be seen. */
  set(count, present = -1, reveal = false) {
    this.count = count;
    this.present = Math.min(present, count - 1);
    this.drawn = null;
    this.pool = new Map(this.key ? [...this.rows.children].map((row) => [row.key, row]) : []);
    this.element.classList.toggle("windowed", !this.isWhole);
    this.space.style.height = this.isWhole ? "" : `${count * this.height}px`;
    if (reveal && !this.isWhole) this.scrollTo(this.present * this.height, (this.present + 1) * this.height);
    this.draw();
    if (reveal && this.isWhole) this.reveal(this.present);
  }

  /** Scrolls as little as it takes that a part is seen. */
  scrollTo(top, bottom) {
    const list = this.element;
    const height = list.clientHeight - (this.head ? this.head.offsetHeight : 0);
    if (top < list.scrollTop) list.scrollTop = top;
    else if (bottom > list.scrollTop + height) list.scrollTop = bottom - height;
  }

  /** Makes the rows that are seen, and some more on both sides; those that are there already are kept. */
  draw() {
    const [first, end] = this.seen();
    if (this.drawn && this.drawn[0] <= first && end <= this.drawn[1]) return;
    const from = this.isWhole ? 0 : Math.max(0, first - SPARE);
    const to = this.isWhole ? this.count : Math.min(this.count, end + SPARE);
    const kept = this.drawn ? [...this.rows.children] : [];
    const made = [];
    for (let index = from; index < to; index++) made.push(kept[index - (this.drawn?.[0] ?? 0)] ?? this.made(index));
    this.drawn = [from, to];
    this.rows.replaceChildren(...made);
    this.rows.style.top = this.isWhole ? "" : `${from * this.height}px`;
    this.mark();
  }

  /** The rows that are seen: the first, and the one behind the last. */
  seen() {
    if (this.isWhole) return [0, this.count];
    const first = Math.floor(this.element.scrollTop / this.height);
    const end = first + Math.ceil((this.element.clientHeight || 400) / this.height) + 1;
    return [Math.min(first, this.count), Math.min(end, this.count)];
  }

  made(index) {
    const key = this.key ? this.key(index) : "";
    const row = this.pool.get(key) ?? this.fresh(index, key);
    this.pool.delete(key);
    row.index = index;
    row.id = `${this.name}-${index}`;
    row.setAttribute("aria-setsize", this.count);
    row.setAttribute("aria-posinset", index + 1);
    return row;
  }

  fresh(index, key) {
    const row = this.row(index);
    row.key = key;
    row.classList.add("row");
    row.setAttribute("role", this.option);
    row.addEventListener("click", () => { this.go(row.index); this.choose(row.index); });
    row.addEventListener("mouseenter", () => this.look(row.index));
    row.addEventListener("mouseleave", () => this.look(-1));
    return row;
  }

  /** Makes a row the present one, and shows it. */
  go(index) {
    this.present = Math.max(0, Math.min(this.count - 1, index));
    this.reveal(this.present);
    this.mark();
    this.look(this.present);
  }

  /** Scrolls so that a row is seen. */
  reveal(index) {
    if (index < 0) return;
    const row = this.isWhole ? this.rows.children[index] : null;
    const top = row ? row.offsetTop : index * this.height;
    const bottom = row ? top + row.offsetHeight : top + this.height;
    this.scrollTo(top, bottom);
    this.draw();
  }

  mark() {
    for (const row of this.rows.children) {
      const is = row.id === `${this.name}-${this.present}`;
      row.classList.toggle("present", is);
      row.setAttribute("aria-selected", is);
    }
    if (this.present >= 0) this.element.setAttribute("aria-activedescendant", `${this.name}-${this.present}`);
    else this.element.removeAttribute("aria-activedescendant");
  }

  typed(event) {
    const page = Math.max(1, Math.floor(this.element.clientHeight / this.height) - 1);
    const ways = { ArrowDown: 1, ArrowUp: -1, PageDown: page, PageUp: -page, Home: -this.count, End: this.count };
    if (event.key in ways && this.count) this.go(this.present + ways[event.key]);
    else if ((event.key === "Enter" || event.key === " ") && this.present >= 0) this.choose(this.present);
    else return;
    event.preventDefault();
    event.stopPropagation();
  }
}
