// The line of buttons, light and dark, and the keys.
import { make } from "./elements.js";
import { tell } from "./dialogs.js";

export const KEYS = [
  ["1 .. 9", "takes an entry, or asks for its values"], ["m", "to the menu; arrows and Enter choose there"],
  ["u", "undo"], ["r", "redo"], ["c", "to the chart; Enter goes to a step"], ["b", "to the branches"],
  ["n", "to the data: normal forms and equality"], ["w", "steps by chance"], ["t", "until an event"], ["s", "saves the trace"],
  ["e", "exports the page"], ["Esc", "closes what is open"], ["?", "shows this"]];

/** A button of the line. */
export function tool(id, label, title, call) {
  return make("button", { type: "button", id, title, onclick: call }, label);
}

/** Calls what stands behind a key, where no text is typed and no dialog is open. */
export function listen(calls) {
  addEventListener("keydown", (event) => {
    const isTyped = /^(INPUT|TEXTAREA|SELECT)$/.test(event.target.tagName);
    if (isTyped || event.ctrlKey || event.metaKey || event.altKey || document.querySelector("dialog[open]")) return;
    const call = /^[1-9]$/.test(event.key) ? () => calls.entry(Number(event.key)) : calls[event.key];
    if (!call) return;
    event.preventDefault();
    call();
  });
}

export function tellKeys() {
  tell("Keys", make("table", {}, ...KEYS.map(([key, what]) => make("tr", {}, make("th", { scope: "row" },
    make("kbd", {}, key)), make("td", {}, what)))));
}

/** Changes between light and dark; kept for the next time where the browser allows it. */
export function theme() {
  const root = document.documentElement;
  const isDark = matchMedia("(prefers-color-scheme: dark)").matches;
  const now = root.dataset.theme ?? (isDark ? "dark" : "light");
  root.dataset.theme = now === "dark" ? "light" : "dark";
  keep(root.dataset.theme);
}

function keep(value) {
  try { localStorage.setItem("lotos-theme", value); } catch { /* a page of a file may have no storage */ }
}

export function takeUpTheme() {
  try {
    const kept = localStorage.getItem("lotos-theme");
    if (kept) document.documentElement.dataset.theme = kept;
  } catch { /* as above */ }
}
