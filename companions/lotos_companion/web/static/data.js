// The data: the normal form of a term, and whether two are equal, in a line each.
import { make, visible } from "./elements.js";

export class DataView {
  /** `question(word, terms)` asks the program. */
  constructor(question) {
    this.question = question;
    this.input = make("input", { type: "text", id: "terms", spellcheck: "false", autocomplete: "off",
      placeholder: "TERM, or TERM, TERM", "aria-label": "A term, or two with a comma between" });
    this.answers = make("ol", { class: "answers", "aria-live": "polite" });
    this.element = make("div", { class: "data" }, make("form", { class: "typed",
      onsubmit: (event) => { event.preventDefault(); this.ask("normal"); } }, this.input,
    make("button", { type: "submit", id: "normal" }, "Normal form"),
    make("button", { type: "button", id: "equal", onclick: () => this.ask("equal") }, "Equal?")), this.answers);
  }

  async ask(word) {
    const terms = this.input.value.trim();
    if (!terms) return;
    const answer = await this.question(word, terms);
    const lines = [...(answer.said ?? []), answer.note].filter(Boolean).join("\n");
    this.answers.prepend(make("li", {}, make("code", {}, visible(`${word} ${terms}`)), " ",
      make("output", { class: lines.startsWith("refused ") ? "fault" : "" }, visible(lines))));
    while (this.answers.children.length > 20) this.answers.lastChild.remove();
  }

  focus() { this.input.focus(); }
}
