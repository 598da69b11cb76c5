// explorer.js: asks the program, and keeps its answers. Two workers: one looks while one types, one does long work, so that neither waits for the other.
import { Engine, STOPPED, TOO_LONG } from "./engine.js";

/** @typedef {import("./types.js").Answer} Answer */

// How many answers on one program are kept.
const MOST_KEPT = 24;

export class Explorer {
  /** @param {WebAssembly.Module} module */
  constructor(module) {
    this.quick = new Engine(module);
    this.long = new Engine(module);
    this.about = "";
    /** @type {{ key: string, timer: number, answer: Promise<Answer> } | null} */
    this.asking = null;
    /** @type {Map<string, Answer>} */
    this.kept = new Map();
  }

  /**
   * @param {string[]} words
   * @param {string} source
   * @param {number} [limit] In milliseconds; 0 is none.
   * @returns {Promise<Answer>}
   */
  async look(words, source, limit = 0) {
    const known = this.known(words, source);
    if (known) return known;
    const timer = limit ? setTimeout(() => this.quick.stop(TOO_LONG), limit) : 0;
    const answer = await this.quick.run(words, source);
    clearTimeout(timer);
    return this.keep(words, source, answer);
  }

  /**
   * @param {string[]} words
   * @param {string} source
   * @param {{ limit: number, tell: (text: string) => void }} how The limit is in milliseconds; 0 is none.
   * @returns {Promise<Answer>}
   */
  async ask(words, source, { limit, tell }) {
    const key = [source, ...words].join("\n");
    if (this.asking?.key === key) {
      if (!limit) clearTimeout(this.asking.timer);
      return this.asking.answer;
    }
    const known = this.known(words, source);
    if (known) return known;
    this.long.stop();
    const timer = limit ? setTimeout(() => this.long.stop(TOO_LONG), limit) : 0;
    const asking = { key, timer, answer: this.long.run(words, source, (text) => {
      const said = text.replace(/\x1b\[K/g, "").replace(/[\r\n]+/g, " ").trim();
      if (said) tell(said);
    }) };
    this.asking = asking;
    const answer = await asking.answer;
    clearTimeout(timer);
    if (this.asking === asking) this.asking = null;
    return this.keep(words, source, answer);
  }

  /**
   * @param {string[]} words
   * @param {string} source
   */
  known(words, source) {
    if (source !== this.about) {
      this.about = source;
      this.kept.clear();
    }
    return this.kept.get(words.join("\n"));
  }

  /**
   * @param {string[]} words
   * @param {string} source
   * @param {Answer} answer
   */
  keep(words, source, answer) {
    if (source === this.about && answer.status !== STOPPED && answer.status !== TOO_LONG && !answer.fault) {
      this.kept.set(words.join("\n"), answer);
      if (this.kept.size > MOST_KEPT) this.kept.delete(/** @type {string} */ (this.kept.keys().next().value));
    }
    return answer;
  }

  get isBusy() {
    return this.long.isBusy || this.quick.isBusy;
  }

  stop() {
    this.long.stop();
    this.quick.stop();
  }
}
