// The page: one model of the session, a view of each part of it, and the buttons and keys that move it.
import { BranchesView } from "./branches.js";
import { ChartView } from "./chart.js";
import { Client } from "./client.js";
import { DataView } from "./data.js";
import { ask } from "./dialogs.js";
import { make, visible } from "./elements.js";
import { chooser, dropped, png, write } from "./files.js";
import { Model, readEntry } from "./model.js";
import { Player, recorded } from "./player.js";
import { SideView } from "./sides.js";
import { listen, takeUpTheme, tellKeys, theme, tool } from "./tools.js";

const find = (id) => document.getElementById(id);
const model = new Model();
const scenario = recorded();
const client = scenario ? new Player(scenario) : new Client(busy, lost);
const chart = new ChartView(go);
const branches = new BranchesView(go);
const data = new DataView((word, terms) => client.call("ask", { word, terms }));
let sides = [];

/** Asks for a move, and shows what is there then. */
async function move(name, given = {}) {
  try {
    const view = await client.call(name, { ...given, ...model.known });
    if (view.sources) build(view);
    const isRefused = name === "step" && view.taken === false && !view.lost;
    if (!isRefused && model.apply(view)) show();
    say([...(view.said ?? []), view.note].filter(Boolean), name);
    return view;
  } catch (fault) {
    say([`${fault.message}`.trim()]);
    return null;
  }
}

function go(place) { return move("go", { place }); }
function take(number, values) { return move("step", { number, values }); }

/** Builds what depends on the specifications. */
function build(view) {
  sides.forEach((it) => it.element.remove());
  const isMany = view.sources.length > 1;
  sides = view.sources.map((source, number) => new SideView(number, source, isMany, {
    take: number === 0 ? take : () => say(["steps are taken in the first specification; this one follows"]),
    fitting: async (entry, most) => {
      const answer = await client.call("values", { number: entry, most, ...model.known });
      return answer.values ? { values: answer.values, isAll: answer.is_all } : { values: [], isAll: true };
    } }));
  find("parts").prepend(...sides.map((it) => it.element));
  find("parts").classList.toggle("many", isMany);
  find("parts").style.setProperty("--sides", sides.length);
  if (isMany) sides.forEach((it, number) => it.source.compare(view.sources[number ? 0 : 1].text));
}

function show() {
  const next = model.ahead.length ? readLine(model.places[model.ahead[0]].line) : 0;
  sides.forEach((it, number) => it.show(model, number, next));
  chart.show(model);
  branches.show(model);
  find("title").textContent = visible(model.name);
  document.title = `${visible(model.name)} \u2013 step ${model.path().length}`;
  find("undo").disabled = model.at === 0;
  find("redo").disabled = model.ahead.length === 0;
  find("numbers")?.setAttribute("aria-pressed", model.numbers);
  const many = model.steps.length;
  find("chart-count").textContent = many ? `${model.path().length} of ${many} step${many === 1 ? "" : "s"}` : "no step yet";
}

function readLine(line) { return Number(/^step (\d+)/.exec(line)?.[1] ?? 0); }

/** Says lines where screen readers read them too. */
function say(lines, word = "") {
  const side = model.sides[0];
  const shown = lines.length ? lines.flatMap((it) => it.split("\n")) : side && word !== "open" ? [`step ${model.path().length}: ${side.head}`] : [];
  const isFault = shown.some((it) => /^refused |ended|ran out|parts at|not written|failed|this is no /.test(it));
  find("status").className = isFault ? "fault" : "";
  find("status").replaceChildren(...shown.map((it) => make("span", {}, visible(it))));
}

function busy(is) {
  document.body.classList.toggle("busy", is);
  const stop = find("stop");
  if (stop) stop.hidden = !is;
}

function lost() {
  document.body.classList.add("lost");
  say(["the session has ended: call lotos-web again"]);
}

async function walk() {
  const typed = await ask("Steps by chance", [{ name: "count", label: "How many", value: "5", type: "number", min: 1, max: 1000 },
    { name: "seed", label: "Seed (any, if empty; the same seed takes the same steps)" }], { yes: "Walk" });
  if (typed) move("walk", { count: Math.max(1, Math.min(1000, Number(typed.count) || 1)), seed: typed.seed });
}

async function until() {
  const gates = [...new Set(model.sides[0].entries.map(([line]) => readEntry(line).label.split(" ")[0]))];
  const typed = await ask("Until an event", [{ name: "event", label: "A gate, with values behind ! if they matter",
    value: gates.find((it) => it !== "i") ?? "" }], { yes: "Go", text: "The shortest way to the event is searched and taken." });
  if (typed) move("until", { event: typed.event });
}

async function load(name, text) { await move("load", { name, text }); }
async function save() { say([await write(client, "save", "Save the trace", `${stem()}.trace`)]); }
async function exportPage() { say([await write(client, "export", "Export a page that plays alone", `${stem()}.html`)]); }
async function exportSvg() {
  say([await write(client, "write", "The chart as SVG", `${stem()}.svg`, { text: chart.picture().text })]);
}
async function exportPng() {
  say([await write(client, "write", "The chart as PNG", `${stem()}.png`, { bytes: await png(chart.picture()) })]);
}
function stem() { return (model.sources[0].file || "scenario").replace(/\.[^.]*$/, ""); }

function entry(number) {
  const place = model.sides[0].entries.findIndex(([line]) => line.startsWith(`${number}: `));
  if (place >= 0) sides[0].menu.chosen(place);
}

/** Says how a reviewer comes to where the scenario ends, and what did not fit. */
function tellReplay() {
  find("data-title").textContent = "To stand where it ends, type";
  find("data").append(make("pre", { class: "replay", tabindex: "0" }, visible(scenario.replay.join("\n"))));
  if (scenario.refusal) find("data").append(make("p", { class: "fault" }, visible(scenario.refusal)));
}

const focus = (element) => () => element.focus();
const tools = [
  tool("undo", "Undo", "Takes back a step (u)", () => move("undo")),
  tool("redo", "Redo", "Takes the step again that was undone (r)", () => move("redo"))];
const liveTools = [
  tool("walk", "Random", "Steps by chance (w)", walk), tool("until", "Until", "A shortest way to an event (t)", until),
  tool("save", "Save", "Saves the trace (s)", save), ...chooser("Load", load),
  tool("export", "Export", "One page that plays without a server (e)", exportPage),
  tool("svg", "SVG", "The chart as SVG", exportSvg), tool("png", "PNG", "The chart as PNG", exportPng),
  tool("reload", "Read anew", "Reads the files anew and takes the steps again", () => move("reload")),
  tool("numbers", "Numbers", "Decimal numbers for numerals", () => move("numbers", { on: !model.numbers })),
  tool("stop", "Stop", "Ends what the program does", () => client.stop())];

takeUpTheme();
find("tools").append(...tools, ...(scenario ? client.tools(move) : liveTools),
  tool("theme", "Light or dark", "Changes between light and dark", theme), tool("keys", "Keys", "Shows the keys (?)", tellKeys));
find("chart-title").append(" ", make("span", { class: "count", id: "chart-count" }));
find("chart").append(chart.list.element);
find("branches").append(branches.list.element);
if (!scenario) find("data").append(data.element);
else if (scenario.replay.length) tellReplay();
else find("data").remove();
const moves = { u: () => move("undo"), r: () => move("redo"), m: () => sides[0].menu.list.element.focus(),
  c: focus(chart.list.element), b: focus(branches.list.element), "?": tellKeys, entry };
listen(scenario ? moves : { ...moves, n: () => data.focus(), w: walk, t: until, s: save, e: exportPage });
if (!scenario) {
  dropped(load);
  busy(false);
}
move("open").then(() => {
  const asked = /^#step-(\d+)$/.exec(location.hash);
  if (scenario && asked) move("go", { place: Number(asked[1]) });
});
