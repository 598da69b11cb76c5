// options.js: the options of the form, those that a program names in its first comment, and the words that each part of the command takes.
import { byId, field } from "./dom.js";

/** @typedef {import("./types.js").Options} Options */

const NAMES = /** @type {const} */ (["choices", "states", "steps", "gates", "signals"]);
/** @type {Options} */
export const USUAL = Object.freeze({ choices: "", states: "", steps: "", gates: "first", signals: "return" });
// What each part takes; `ends` stands for schedules of any length.
/** @type {Record<string, (typeof NAMES)[number][]>} */
const TAKEN = {
  refusal: ["signals"],
  outcomes: ["choices", "steps", "gates", "signals", "states"],
  mark: ["choices", "steps", "gates", "signals", "states"],
  ends: ["steps", "gates", "signals", "states"],
  trace: ["choices", "steps", "gates", "signals"],
  lanes: ["choices", "steps", "gates", "signals"],
  page: ["choices", "steps", "gates", "signals"],
};

/**
 * The words of the options that a part takes.
 * @param {Options} options
 * @param {string} part
 * @param {boolean} [isEndless]
 */
export function wordsOf(options, part, isEndless = false) {
  return TAKEN[part].filter((name) => options[name] !== USUAL[name] && !(isEndless && name === "choices")).flatMap((name) => [`--${name}`, options[name]]);
}

/**
 * What is not as usual, in words.
 * @param {Options} options
 */
export function told(options) {
  return NAMES.filter((name) => options[name] !== USUAL[name]).map((name) => `--${name} ${options[name]}`).join(" ");
}

/**
 * The options that a program names in its first comment, as in `Options: --choices 19; --choices 5 finds it`. Only the first ones count.
 * @param {string} source
 * @returns {{ options: Options, isEndless: boolean, words: string }}
 */
export function namedIn(source) {
  const comment = /^\s*"([^"]*)"/.exec(source)?.[1] ?? "";
  const words = /\bOptions:\s*([^;,\n]*)/.exec(comment)?.[1].trim() ?? "";
  const options = { ...USUAL };
  for (const [, name, value] of words.matchAll(/--(choices|states|steps|gates|signals)[ =](\w+)/g)) options[/** @type {(typeof NAMES)[number]} */ (name)] = value;
  return { options: safe(options), isEndless: /--ends\b/.test(words), words };
}

/**
 * Options as they may come from outside: what is none of them is left out.
 * @param {unknown} given
 * @returns {Options}
 */
export function safe(given) {
  const options = { ...USUAL };
  if (typeof given !== "object" || given === null) return options;
  for (const name of ["choices", "states", "steps"]) {
    const value = Reflect.get(given, name);
    if (/^\d{1,9}$/.test(String(value ?? ""))) Reflect.set(options, name, String(value));
  }
  if (Reflect.get(given, "gates") === "any") options.gates = "any";
  const signals = Reflect.get(given, "signals");
  if (signals === "continue" || signals === "wait") options.signals = signals;
  return options;
}

/**
 * What the form has.
 * @returns {Options}
 */
export function read() {
  const options = { ...USUAL };
  for (const name of NAMES) options[name] = field(`option-${name}`).value.trim() || USUAL[name];
  return options;
}

/** @param {Options} options */
export function write(options) {
  for (const name of NAMES) field(`option-${name}`).value = options[name];
  tell();
}

/** Says beside the button how many options are not as usual. */
export function tell() {
  const options = read(), count = NAMES.filter((name) => options[name] !== USUAL[name]).length;
  byId("options-set").hidden = count === 0;
  byId("options-set").textContent = String(count);
  byId("options-set").title = told(options);
  byId("open-options").textContent = count ? `Options (${count})` : "Options";
}

/**
 * @param {() => void} changed
 * @param {() => string} source
 */
export function listen(changed, source) {
  const all = () => { tell(); changed(); };
  for (const name of NAMES) field(`option-${name}`).addEventListener("change", all);
  byId("options-usual").addEventListener("click", () => { write(USUAL); changed(); });
  byId("options-named").addEventListener("click", () => { write(namedIn(source()).options); changed(); });
  byId("options-panel").addEventListener("submit", (event) => { event.preventDefault(); all(); });
}
