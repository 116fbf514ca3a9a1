// What the page knows of the session: all places that were reached, where it stands, and each specification's menu and state.

export class Model {
  constructor() {
    this.places = [];
    this.epoch = -1;
    this.sides = [];
    this.sources = [];
  }

  /** Takes up what an answer tells. */
  apply(view) {
    if (view.sources) Object.assign(this, { sources: view.sources, folder: view.folder, style: view.style });
    if (view.places === undefined) return false;
    if (view.epoch !== this.epoch) this.places = [];
    this.places.splice(view.known, this.places.length, ...view.places);
    Object.assign(this, { epoch: view.epoch, at: view.at, tip: view.tip, lanes: view.lanes, sides: view.sides,
      numbers: view.numbers });
    return true;
  }

  /** What the server is told, so that it tells the rest alone. */
  get known() { return { epoch: Math.max(0, this.epoch), known: this.places.length }; }

  /** The places from behind the first step up to one. */
  path(place = this.at) {
    const found = [];
    for (; place > 0; place = this.places[place].parent) found.push(place);
    return found.reverse();
  }

  /** The places that redo leads to. */
  get ahead() { return this.path(this.tip).slice(this.path().length); }

  /** The steps of the chart: those that led here, then those that were undone. */
  get steps() { return this.path(this.tip); }

  get name() { return (this.sources[0]?.opening[0] ?? "").replace(/^accepted /, ""); }
}

/** An entry of a menu, read from its line. */
export function readEntry(line) {
  const [, number, rest] = /^(\d+): ([^]*)$/.exec(line);
  const [label, behind] = parted(rest, " for ");
  const [listed, conditions] = parted(behind, " if ");
  const variables = listed ? listed.split(", ").map((it) => it.slice(it.indexOf(":") + 1)) : [];
  return { number: Number(number), label, behind: rest.slice(label.length), sorts: variables, conditions };
}

function parted(text, sign) {
  const place = text.indexOf(sign);
  return place < 0 ? [text, ""] : [text.slice(0, place), text.slice(place + sign.length)];
}
