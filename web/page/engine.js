// engine.js: a worker that holds the compiled program. A command that is not wanted any more ends with its worker, and the next worker is there at once.
import { byId } from "./dom.js";

/** The status of an answer that was stopped, and of one that took longer than it may. */
export const STOPPED = 130, TOO_LONG = 124;
// A worker gives the memory of its runs back late, so it is replaced after so many.
const MOST_RUNS = 200;

/** @typedef {{ done: (answer: Answer) => void, tell: ((text: string) => void) | undefined }} Asked */
/** @typedef {import("./types.js").Answer} Answer */

const NO_WORKER = "This browser does not let the page run its program beside itself, in a worker.";

/** @param {string} address */
function startedAt(address) {
  try {
    return new Worker(address);
  } catch {
    throw new Error(NO_WORKER);
  }
}

export class Engine {
  /** @param {WebAssembly.Module} module */
  constructor(module) {
    this.module = module;
    this.next = 0;
    /** @type {Map<number, Asked>} */
    this.asked = new Map();
    this.address = URL.createObjectURL(new Blob([byId("worker").textContent ?? ""], { type: "text/javascript" }));
    this.runs = 0;
    this.isBroken = false;
    this.worker = this.begin();
  }

  begin() {
    const worker = startedAt(this.address);
    worker.onmessage = ({ data }) => this.hear(data);
    worker.onerror = (event) => {
      event.preventDefault();
      this.isBroken = true;
      this.end({ status: 127, fault: NO_WORKER });
    };
    worker.postMessage({ module: this.module });
    return worker;
  }

  /** @param {Answer & { id: number, progress?: string }} data */
  hear(data) {
    const asked = this.asked.get(data.id);
    if (!asked) return;
    if (data.progress !== undefined) {
      asked.tell?.(data.progress);
      return;
    }
    this.asked.delete(data.id);
    asked.done(data);
    if (!this.asked.size && this.runs >= MOST_RUNS) this.renew();
  }

  /**
   * The answer to the words of a command line about a source.
   * @param {string[]} words
   * @param {string} source
   * @param {(text: string) => void} [tell] Takes what is said of progress.
   * @returns {Promise<Answer>}
   */
  run(words, source, tell) {
    if (this.isBroken) this.renew();
    return new Promise((done) => {
      const id = this.next++;
      this.runs++;
      this.asked.set(id, { done, tell });
      this.worker.postMessage({ id, words, source });
    });
  }

  get isBusy() {
    return this.asked.size > 0;
  }

  renew() {
    this.worker.terminate();
    this.runs = 0;
    this.isBroken = false;
    this.worker = this.begin();
  }

  /** Ends what runs, if anything does. */
  stop(status = STOPPED) {
    if (!this.isBusy) return;
    this.renew();
    this.end({ status, fault: "" });
  }

  /** @param {{ status: number, fault: string }} how */
  end({ status, fault }) {
    const all = [...this.asked.values()];
    this.asked.clear();
    for (const it of all) it.done({ status, out: "", err: "", fault, milliseconds: 0 });
  }
}
