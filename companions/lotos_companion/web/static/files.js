// Files: traces that are dropped or chosen, and what is written into the one folder of the session.
import { make } from "./elements.js";
import { ask } from "./dialogs.js";

/** Writes a file by a call, and asks before one is written over; what is to be said of it. */
export async function write(client, call, title, name, given = {}) {
  const typed = await ask(title, [{ name: "name", label: "File name", value: name }], { yes: "Write" });
  if (!typed) return "";
  let answer = await client.call(call, { ...given, name: typed.name });
  if (answer.is_there) {
    const agreed = await ask("Write over it?", [], { text: `${answer.is_there} is there.`, yes: "Write over" });
    if (!agreed) return `not written: ${answer.is_there} is there`;
    answer = await client.call(call, { ...given, name: typed.name, over: true });
  }
  return answer.written ? `written: ${answer.written}` : answer.note;
}

/** A picture of an SVG's text as the bytes of a PNG, in base64. */
export async function png({ text, width, height }) {
  const scale = Math.min(2, 32000 / height, 32000 / width);
  const address = URL.createObjectURL(new Blob([text], { type: "image/svg+xml" }));
  try {
    const image = new Image();
    image.src = address;
    await image.decode();
    const canvas = make("canvas", { width: Math.ceil(width * scale), height: Math.ceil(height * scale) });
    canvas.getContext("2d").drawImage(image, 0, 0, canvas.width, canvas.height);
    return canvas.toDataURL("image/png").split(",")[1];
  } finally {
    URL.revokeObjectURL(address);
  }
}

/** Has files that are dropped anywhere on the page read: `load(name, text)`. */
export function dropped(load) {
  const over = (is) => document.body.classList.toggle("dropping", is);
  addEventListener("dragover", (event) => { event.preventDefault(); over(true); });
  addEventListener("dragleave", (event) => { if (!event.relatedTarget) over(false); });
  addEventListener("drop", async (event) => {
    event.preventDefault();
    over(false);
    const file = event.dataTransfer.files[0];
    if (file) load(file.name, await file.text());
  });
}

/** A button by which a file is chosen. */
export function chooser(label, load) {
  const input = make("input", { type: "file", hidden: true, "aria-hidden": "true", tabindex: "-1", id: "file", accept: ".trace,.scenario,.txt",
    onchange: async () => {
      const file = input.files[0];
      if (file) await load(file.name, await file.text());
      input.value = "";
    } });
  return [make("button", { type: "button", id: "load", title: "A trace or a scenario; it can be dropped on the page too",
    onclick: () => input.click() }, label), input];
}
