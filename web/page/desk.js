// desk.js: the program that is open, where it came from, and its draft. What stands in the address or in the page is never replaced by a draft: the draft is offered beside it.
import { packed, shared, unpacked } from "./address.js";
import { byId, dataOf, doing, make } from "./dom.js";
import { draftOf, dropDraft, keepDraft, lastProgram } from "./drafts.js";
import { dialog, dismissNotices, notice, say } from "./notices.js";
import { namedIn, read } from "./options.js";
import { EMPTY, examples } from "./programs.js";
import { spelled } from "./words.js";

/** @typedef {import("./address.js").Shared} Shared */
/** @typedef {{ source: string, original: string, key: string, name: string, options: import("./types.js").Options, view: string, schedule: import("./types.js").Schedule | null }} Opening */

const FIRST = "example:philosophers-deadlock";

export class Desk {
  /** @param {(opening: Opening) => void} show */
  constructor(show) {
    this.show = show;
    this.title = document.title;
    this.key = "";
    this.name = "";
    this.original = "";
    this.canKeep = true;
  }

  /** What is to be seen first: what the page or its address holds, or else what was open last. */
  async begin() {
    if (location.hash.length > 1) await this.fromAddress();
    else this.openUsual();
  }

  openUsual() {
    const given = dataOf("given");
    if (given) this.fromOutside(shared(given), "page");
    else this.open(this.known(lastProgram()) ? lastProgram() : FIRST);
  }

  async fromAddress() {
    try {
      const it = await unpacked(location.hash);
      if (it) this.fromOutside(it, "address");
    } catch {
      if (!this.key) this.openUsual();
      notice("The part of this address behind # holds no program that can be read. Perhaps it was cut when it was copied. What is shown below is not of it.", "bad");
    }
  }

  /**
   * @param {Shared} it
   * @param {string} from
   */
  fromOutside(it, from) {
    dismissNotices();
    const { key, taken } = keyFor(`${from}:${checksum(it.source)}`, it.source);
    this.set({ ...it, key, original: it.source });
    if (taken) notice("You have changed this program before. Your draft is kept beside it.", "plain", doing("Open the draft", () => this.open(taken)));
  }

  /**
   * Whether a program of this key can be opened.
   * @param {string} key
   */
  known(key) {
    return draftOf(key) !== null || examples().some((it) => `example:${it.name}` === key);
  }

  /**
   * Opens an example or a draft. An example that was changed opens as its draft, and the original is offered.
   * @param {string} key
   */
  open(key) {
    dismissNotices();
    this.leaveAddress();
    const example = examples().find((it) => `example:${it.name}` === key), draft = draftOf(key);
    const source = draft?.source ?? example?.source ?? EMPTY;
    const { options, isEndless } = namedIn(source);
    this.set({ key, name: draft?.name ?? example?.name ?? "program", source, original: example?.source ?? source, options: draft?.options ?? options, view: isEndless ? "ends" : "", schedule: null });
    lastProgram(key);
    if (draft && example && draft.source !== example.source) notice(`This is your draft of ${example.name}.`, "plain", doing("Back to the original", () => this.backToOriginal(key)));
  }

  /**
   * Opens an example anew without its draft, which can be taken back.
   * @param {string} key
   */
  backToOriginal(key) {
    const draft = draftOf(key);
    dropDraft(key);
    this.open(key);
    if (draft) notice("Your draft was thrown away.", "plain", doing("Take it back", () => { keepDraft(key, draft); this.open(key); }));
  }

  /**
   * A program under a name of its own: one that is new, or of a file.
   * @param {string} name
   * @param {string} source
   * @param {"own" | "file"} from
   */
  begins(name, source, from) {
    dismissNotices();
    this.leaveAddress();
    const { key, taken } = keyFor(`${from}:${name}`, source);
    const { options, isEndless } = namedIn(source);
    this.set({ key, name, source, original: source, options, view: isEndless ? "ends" : "", schedule: null });
    if (taken) notice(`You have a draft of another text of ${name}.cp.`, "plain", doing("Open the draft", () => this.open(taken)));
    else if (!keepDraft(key, { name, source, options, at: Date.now() })) this.saysNothingKept();
  }

  makeNew() {
    let number = 1;
    while (draftOf(`own:program-${number}`)) number++;
    this.begins(`program-${number}`, EMPTY, "own");
  }

  /** @param {Opening} opening */
  set(opening) {
    this.key = opening.key;
    this.name = opening.name;
    this.original = opening.original;
    byId("program-name").textContent = `${opening.name}.cp`;
    document.title = `${opening.name}, ${this.title}`;
    this.show(opening);
  }

  /**
   * The text was changed: it is kept, and the address no longer says what is shown.
   * @param {string} source
   */
  changed(source) {
    this.leaveAddress();
    if (source === this.original && this.key.startsWith("example:")) {
      dropDraft(this.key);
      lastProgram(this.key);
      return;
    }
    if (!keepDraft(this.key, { name: this.name, source, options: read(), at: Date.now() })) this.saysNothingKept();
  }

  saysNothingKept() {
    if (this.canKeep) notice("This browser keeps no drafts for this page. Save the program before you leave.", "plain");
    this.canKeep = false;
  }

  // The address as it was stays one step back in the history.
  leaveAddress() {
    if (location.hash.length > 1) history.pushState(null, "", location.href.split("#")[0]);
  }

  /** @param {Shared} it */
  async share(it) {
    let part = "#";
    try {
      part += await packed(it);
      history.replaceState(null, "", part);
    } catch {
      notice("This program is too long for an address. Save it as a file.", "bad");
      return;
    }
    const isFile = location.protocol === "file:";
    const text = isFile ? part : location.href;
    const means = isFile ? "It is the part of the address behind #, of " : "It is an address of ";
    const whole = it.schedule ? `program, schedule ${spelled(it.schedule.word).slice(0, 40)} and options` : "program and its options";
    const where = isFile ? " Put it behind the address of any copy of this page." : "";
    const rest = `${means}${text.length} letters, and holds the ${whole}.${where} Nothing was sent.`;
    try {
      await navigator.clipboard.writeText(text);
      say("Copied to share");
      notice(`Copied. ${rest}`, "plain");
    } catch {
      const area = make("textarea", { value: text, readOnly: true, rows: 6, className: "mono", "aria-label": "To be copied" });
      dialog("Share", make("p", { textContent: `Copy this text. ${rest}` }), area);
      area.select();
    }
  }
}

/**
 * The key of a program that comes from outside: one under which no draft of another text is kept, so that what is typed replaces none; and the last key that such a draft has taken.
 * @param {string} base
 * @param {string} source
 */
function keyFor(base, source) {
  let key = base, taken = "";
  for (let number = 2; ; number++) {
    const draft = draftOf(key);
    if (!draft || draft.source === source) return { key, taken };
    taken = key;
    key = `${base}.${number}`;
  }
}

/**
 * A short name of a text, to tell the drafts of shared programs apart.
 * @param {string} text
 */
function checksum(text) {
  let sum = 0x811c9dc5;
  for (let place = 0; place < text.length; place++) sum = Math.imul(sum ^ text.charCodeAt(place), 0x01000193) >>> 0;
  return sum.toString(16).padStart(8, "0");
}
