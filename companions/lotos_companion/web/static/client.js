// The calls to the server, one after another, and the stream that tells it that the page is open.

export class Client {
  /** `busy(isBusy)` is called where an answer takes long, and again when it is there; `lost()` where there is no server. */
  constructor(busy, lost) {
    this.busy = busy;
    this.lost = lost;
    this.last = Promise.resolve();
    this.stream = new EventSource("open");
  }

  /** Asks, behind what was asked before. */
  call(name, given = {}) {
    const answer = this.last.then(() => this.post(name, given));
    this.last = answer.catch(() => {});
    return answer;
  }

  /** Ends what the program does. */
  stop() { return this.post("stop", {}); }

  async post(name, given) {
    const slow = setTimeout(() => this.busy(true), 400);
    try {
      const answer = await fetch(`call/${name}`, { method: "POST", body: JSON.stringify(given),
        headers: { "Content-Type": "application/json" } });
      if (!answer.ok) throw new Error(await answer.text());
      return await answer.json();
    } catch (fault) {
      if (fault instanceof TypeError) this.lost();
      throw fault;
    } finally {
      clearTimeout(slow);
      if (name !== "stop") this.busy(false);
    }
  }
}
