// ends.js: schedules of any length: the ends that are possible, the values, and who may wait for ever while others go on.
import { card, kindHeading, reasonOf, reasonsOf } from "./cards.js";
import { make, textElement } from "./dom.js";
import { ways } from "./schedules.js";
import { counted, endOf, endsCompleteness, processOf, waitOf } from "./words.js";

/** @typedef {import("./types.js").Context} Context */
/** @typedef {import("./types.js").Ends} Ends */
/** @typedef {import("./types.js").Wait} Wait */
/** @typedef {import("./types.js").Value} Value */

const MOST_VALUES = 100;

/**
 * @param {Context} context
 * @param {Ends} told
 * @returns {Node[]}
 */
export function endsView(context, told) {
  const ends = told.ends.map((end) => card(end.kind,
    make("div", { className: "card-head" }, textElement("span", "number", `${end.number}.`), kindHeading(end.kind, endOf(end, told))),
    reasonsOf(context, end, told),
    make("div", { className: "ways" }, wayTo(context, end))));
  return [
    textElement("h2", "total", `Schedules of any length: ${told.ends.length ? counted(told.ends.length, "end") : "no end"}${told.signals ? `, signals ${told.signals}` : ""}`),
    textElement("p", `closing ${told.complete && !told.too_many ? "good" : "limit"}`, endsCompleteness(told, context.options)),
    ...notesOf(told).map((note) => textElement("p", "note", note)),
    ...(ends.length ? [make("ol", { className: "cards" }, ...ends)] : []),
    ...waitsOf(context, told),
    ...valuesOf(context, told),
  ];
}

/**
 * How far the search came, where it did not come to its end, or not in the usual way.
 * @param {Ends} told
 */
function notesOf(told) {
  const notes = [];
  if (told.too_many && told.choices !== undefined) notes.push(`All schedules of at most ${counted(told.choices, "choice")} end in what is told, or go on. Try greater --states.`);
  if (told.at_once) notes.push("There were too many states, so kernel calls were made at once: a schedule need not be the shortest.");
  return notes;
}

/**
 * @param {Context} context
 * @param {{ first?: number[], by?: number[] }} it
 */
function wayTo(context, it) {
  return ways(context, it.first ? "first" : "by", { word: it.first ?? it.by ?? [], again: null, isEndless: true });
}

/**
 * @param {Context} context
 * @param {Ends} told
 */
function waitsOf(context, told) {
  const heading = make("h2", { textContent: "Who may wait for ever" });
  if (!told.waits) return [heading, textElement("p", "soft", told.too_many ? "It takes all states to tell. Try greater --states." : "This is not known.")];
  if (!told.waits.length) return [heading, textElement("p", "soft", "nobody may wait for ever while others go on")];
  return [heading, make("ol", { className: "cards" }, ...told.waits.map((wait) => waitCard(context, told, wait)))];
}

/**
 * @param {Ends} told
 * @param {Wait} wait
 */
function sentenceOfWait(told, wait) {
  const how = wait.how === "for good" ? "may wait for good" : wait.how === "in its call" ? "may be woken again and again and never come out of its call" : "may wait for ever";
  const others = wait.others.map((it) => processOf(told.processes, it)).join(" and ");
  return `${processOf(told.processes, wait.process)} ${how}${others ? ` while ${others} ${wait.others.length === 1 ? "goes" : "go"} on` : ""}`;
}

/**
 * @param {Context} context
 * @param {Ends} told
 * @param {Wait} wait
 */
function waitCard(context, told, wait) {
  const place = wait.how === "in its call" ? undefined : wait.final.find((it) => it.process === wait.process);
  return card("waits",
    make("div", { className: "card-head long" }, textElement("span", "number", `${wait.number}.`), kindHeading("waits", sentenceOfWait(told, wait))),
    place ? make("ul", { className: "reasons" }, reasonOf(wait.process, waitOf(place, told))) : null,
    wait.again.length ? null : textElement("p", "soft", "again and again without a choice"),
    make("div", { className: "ways" }, ways(context, "round", { word: wait.first, again: wait.again.length ? wait.again : null, isEndless: true })));
}

/**
 * @param {Context} context
 * @param {Ends} told
 */
function valuesOf(context, told) {
  if (!told.shown.length) return [];
  const rows = told.shown.slice(0, MOST_VALUES).map((it) => make("li", {}, textElement("code", "value", it.value), wayTo(context, it)));
  const cut = told.shown.length > MOST_VALUES ? textElement("p", "soft", `The first ${MOST_VALUES} of ${told.shown.length} values are shown.`) : null;
  return [make("h2", { textContent: `${counted(told.shown.length, "value")} can be displayed${told.more ? ", and more" : ""}` }), make("ul", { className: "values" }, ...rows), ...(cut ? [cut] : [])];
}
