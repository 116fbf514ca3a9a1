// Questions in a dialog: a text is typed, or something is agreed to.
import { make } from "./elements.js";

/** Asks; the values of the fields by their names, or nothing where it was closed. A field is a name, a label and a value. */
export function ask(title, fields, { text = "", yes = "OK" } = {}) {
  return new Promise((answer) => {
    const inputs = fields.map((it) => make("input", { type: it.type ?? "text", id: `ask-${it.name}`, value: it.value ?? "",
      spellcheck: "false", autocomplete: "off", min: it.min, max: it.max }));
    let values = null;
    const dialog = make("dialog", { "aria-label": title, onclose: () => { dialog.remove(); answer(values); } },
      make("form", { onsubmit: (event) => {
        event.preventDefault();
        values = Object.fromEntries(fields.map((it, place) => [it.name, inputs[place].value]));
        dialog.close();
      } },
      make("h2", {}, title), text ? make("p", {}, text) : null,
      ...fields.flatMap((it, place) => [make("label", { for: `ask-${it.name}` }, it.label), inputs[place]]),
      make("p", { class: "buttons" }, make("button", { type: "submit", class: "yes" }, yes),
        make("button", { type: "button", onclick: () => dialog.close() }, "Cancel"))));
    document.body.append(dialog);
    dialog.showModal();
    if (inputs[0]) inputs[0].select();
  });
}

/** Shows a text to be read. */
export function tell(title, ...parts) {
  const dialog = make("dialog", { "aria-label": title, onclose: () => dialog.remove() },
    make("h2", {}, title), ...parts,
    make("form", { method: "dialog" }, make("p", { class: "buttons" }, make("button", { class: "yes" }, "Close"))));
  document.body.append(dialog);
  dialog.showModal();
}
