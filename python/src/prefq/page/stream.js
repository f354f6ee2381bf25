// By what the server tells that its rows have changed: one stream for all windows of a browser, which has six connections to a server. It is that of a shared worker,
// which runs this file too; a browser without such workers has a stream for each window.
const TOLD = ["message", "alive", "failed", "error"];
const AGAIN = 3000;     // milliseconds until a server that has refused the stream is asked again
const SHORT = 1000;     // milliseconds in which a stream is not opened anew: several windows may ask for it at once

class Stream {
  windows = new Set();      // what hears of the events, for each window that wants to

  join(hear) {
    this.windows.add(hear);
    if (!this.source) this.open();
    else if (this.last) hear(this.last);
  }

  leave(hear) {
    this.windows.delete(hear);
    if (this.windows.size) return;
    this.source?.close();
    this.source = undefined;
  }

  anew() {
    if (Date.now() - this.begun > SHORT) this.open();
  }

  open() {
    this.source?.close();
    this.source = new EventSource("changes");
    this.begun = Date.now();
    for (const name of TOLD) this.source.addEventListener(name, event => this.tell(name, event));
  }

  tell(name, {data, target}) {
    this.last = name === "message" ? {name, data} : name === "error" ? undefined : this.last;
    for (const hear of this.windows) hear({name, data});
    // The browser tries again by itself, but not where it was replied that it may not watch.
    if (target.readyState === EventSource.CLOSED) setTimeout(() => { if (this.source === target) this.open(); }, AGAIN);
  }
}

// What a window says: join, leave, or anew, where it has heard nothing for long. What is told of the server with this `run` goes to `hear`.
export function streamOf(run, hear) {
  const own = globalThis.SharedWorker ? undefined : new Stream();
  let port, isJoined = false;
  const begin = () => {
    const worker = new SharedWorker(new URL(`stream.js?run=${run}`, import.meta.url), {type: "module"});
    port = worker.port;
    port.addEventListener("message", ({data}) => hear(data));
    port.start();
    if (isJoined) port.postMessage("join");
    // Its file did not come.
    worker.addEventListener("error", () => {
      hear({name: "error"});
      setTimeout(begin, AGAIN);
    });
  };
  if (!own) begin();
  return Object.fromEntries(["join", "leave", "anew"].map(name => [name, () => {
    isJoined = name !== "leave";
    own ? own[name](hear) : port.postMessage(name);
  }]));
}

if (!globalThis.document) {
  const stream = new Stream();
  addEventListener("connect", ({ports: [port]}) => {
    const hear = told => port.postMessage(told);
    port.addEventListener("message", ({data}) => stream[data](hear));
    port.start();
  });
}
