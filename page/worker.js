"use strict";
// Long work off the page's thread: a worker that runs this very script, which it has from the page, and covers GeoJSON.

/** How many milliseconds pass between two words of a worker on how far it is. */
const BETWEEN_WORDS = 100;

/** That something was stopped. */
class Stopped extends Error {}

/** Covers texts of GeoJSON, one after another, in a worker that is made when the first comes. */
class Coverer {
  /** `show` takes how far the text is that is covered now, from 0 to 1; and null when there is none. */
  constructor(show) {
    this.show = show;
    this.waiting = [];
  }

  /** What coveringsOf makes of a text. */
  cover(text) {
    this.worker ??= this.begun();
    this.worker.postMessage(text);
    return new Promise((resolve, reject) => {
      this.waiting.push({resolve, reject});
      if (this.waiting.length === 1) this.show(0);
    });
  }

  begun() {
    this.code ??= URL.createObjectURL(new Blob([document.getElementById("computes").textContent]));
    const worker = new Worker(this.code);
    worker.onmessage = ({data: {part, error, made}}) => {
      if (part !== undefined) return this.show(part);
      const {resolve, reject} = this.waiting.shift();
      this.show(this.waiting.length ? 0 : null);
      if (error) reject(error);
      else resolve(made);
    };
    worker.onerror = (event) => {
      event.preventDefault();
      this.end(new Error(`no worker runs here: ${event.message}`));
    };
    return worker;
  }

  /** Ends the worker; the texts that wait are stopped. */
  end(error = new Stopped("stopped")) {
    this.worker?.terminate();
    this.worker = null;
    for (const {reject} of this.waiting.splice(0)) reject(error);
    this.show(null);
  }
}

if (typeof document === "undefined") {
  const core = {};
  onmessage = async ({data}) => {
    try {
      core.made ??= await Core.from(unpacked(MODULE));
      let said = performance.now();
      const made = coveringsOf(core.made, JSON.parse(data), (part) => {
        if (performance.now() - said < BETWEEN_WORDS) return;
        said = performance.now();
        postMessage({part});
      });
      postMessage({made}, made.map(({ids}) => ids.buffer));
    } catch ({message, status, place}) {
      postMessage({error: {message, status, place}});
    }
  };
}
