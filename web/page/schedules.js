// schedules.js: a schedule that is laid out: its field, and the buttons that show it.
import { doing, make, textElement } from "./dom.js";
import { spelled } from "./words.js";

/** @typedef {import("./types.js").Context} Context */
/** @typedef {import("./types.js").Schedule} Schedule */
/** @typedef {import("./types.js").ViewName} ViewName */

/**
 * The words that name a schedule to a part of the command.
 * @param {Schedule} schedule
 */
export function scheduleWords({ word, again }) {
  return ["--schedule", spelled(word), ...(again ? ["--again", spelled(again)] : [])];
}

/**
 * A line with a schedule and the views that show it.
 * @param {Context} context
 * @param {string} label
 * @param {Schedule} schedule
 * @param {string} [more]
 */
export function ways(context, label, schedule, more) {
  const text = spelled(schedule.word) + (schedule.again ? ` again ${spelled(schedule.again)}` : "");
  const to = (/** @type {string} */ name, /** @type {ViewName} */ view) => doing(name, () => context.lay(schedule, view), { "aria-label": `${name}: ${label} schedule ${text}` });
  const buttons = make("span", { className: "row" }, to("Picture", "picture"), to("Play", "play"), to("Trace", "trace"));
  const word = make("code", { className: "word", textContent: text, title: text });
  return make("div", { className: "way" }, textElement("span", "label", label), word, textElement("span", "soft", more ?? ""), buttons);
}

/**
 * The word of a text: null where it is none.
 * @param {string} text
 * @returns {number[] | null}
 */
export function wordOf(text) {
  const trimmed = text.trim();
  if (trimmed === "" || trimmed === "none") return [];
  return /^\d{1,2}(\.\d{1,2})*$/.test(trimmed) ? trimmed.split(".").map(Number) : null;
}

/**
 * The field of the schedule above a picture and a trace.
 * @param {Context} context
 * @param {ViewName} view
 * @param {...(Node | null)} tools
 */
export function scheduleBar(context, view, ...tools) {
  const { word, again, isEndless } = context.schedule;
  const input = wordField(word, "Schedule: numbers joined by periods, or none");
  const round = again && wordField(again, "Again: the round that can be repeated for ever");
  const said = make("p", { className: "bad", role: "alert" });
  const show = (/** @type {Event} */ event) => {
    event.preventDefault();
    const first = wordOf(input.value), second = round ? wordOf(round.value) : null;
    if (!first || (round && !second)) said.textContent = "A schedule is none, or numbers 0 to 15 joined by periods.";
    else context.lay({ word: first, again: second, isEndless }, view);
  };
  const labelled = (/** @type {string} */ text, /** @type {HTMLElement} */ it) => make("label", { className: "grow" }, make("span", { textContent: text }), it);
  const fields = [labelled("Schedule", input), round && labelled("again", round), make("button", { textContent: "Show" })];
  return make("div", { className: "bar-whole" }, make("form", { className: "bar", onsubmit: show }, ...fields, ...tools), said);
}

/**
 * @param {number[]} word
 * @param {string} name
 */
function wordField(word, name) {
  return make("input", { className: "mono", value: spelled(word), "aria-label": name, spellcheck: false, autocomplete: "off" });
}
