// The source, with the actions that entries of the menu stand for marked, and those of the step that was taken.
import { make, visible } from "./elements.js";
import { WindowedList } from "./windowed.js";

export class SourceView {
  constructor(number, source) {
    this.lines = source.text === "" ? [] : source.text.replace(/\n$/, "").split("\n");
    this.begins = [];
    let begin = 0;
    for (const line of this.lines) {
      this.begins.push(begin);
      begin += line.length + 1;
    }
    this.marks = [];
    this.changed = () => false;
    this.list = new WindowedList(`Source ${source.file}`, (index) => this.row(index), () => {}, { height: 20 });
    this.list.element.classList.add("code");
    this.element = make("section", { class: "part source", "aria-label": `Source ${source.file}` },
      make("h2", {}, "Source ", make("span", { class: "count" }, visible(source.file))), this.list.element);
    this.list.set(this.lines.length);
  }

  /** Marks the lines that another text has not. */
  compare(other) {
    const others = new Set(other.split("\n").map((it) => it.trim()));
    this.changed = (line) => line.trim() !== "" && !others.has(line.trim());
    this.list.set(this.lines.length);
    this.list.reveal(this.lines.findIndex(this.changed));
  }

  /** Marks parts of the text: each is a kind with its begin and its end. The first of a kind that is sought is shown. */
  show(marks, sought) {
    this.marks = marks;
    this.list.set(this.lines.length);
    const first = marks.find((it) => it.kind === sought);
    if (first) this.list.reveal(this.lineOf(first.begin));
  }

  lineOf(place) {
    let low = 0;
    let high = this.begins.length - 1;
    while (low < high) {
      const middle = Math.ceil((low + high) / 2);
      if (this.begins[middle] <= place) low = middle;
      else high = middle - 1;
    }
    return low;
  }

  row(index) {
    const begin = this.begins[index];
    const line = this.lines[index];
    const here = this.marks.filter((it) => it.begin < begin + line.length && it.end > begin);
    const edges = [...new Set([0, line.length, ...here.flatMap((it) => [it.begin - begin, it.end - begin])])]
      .filter((it) => it >= 0 && it <= line.length).sort((one, other) => one - other);
    const pieces = [];
    for (let place = 0; place + 1 < edges.length; place++) {
      const [from, to] = [edges[place], edges[place + 1]];
      const kinds = here.filter((it) => it.begin - begin <= from && it.end - begin >= to).map((it) => it.kind);
      const text = visible(line.slice(from, to));
      pieces.push(kinds.length ? make("mark", { class: [...new Set(kinds)].join(" ") }, text) : text);
    }
    return make("div", { class: this.changed(line) ? "changed" : "" }, make("span", { class: "number" }, `${index + 1}`), make("span", { class: "text" }, ...pieces));
  }
}
