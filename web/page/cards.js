// cards.js: how a schedule ends, as a card: its kind, who waits where and why, the line and the cause of an error.
import { doing, make, textElement } from "./dom.js";
import { processOf, signOf, toneOf, waitOf } from "./words.js";

/** @typedef {import("./types.js").End} End */
/** @typedef {import("./types.js").Named} Named */
/** @typedef {import("./types.js").Context} Context */

/**
 * A kind with its sign, as a heading.
 * @param {string} kind
 * @param {string} text
 */
export function kindHeading(kind, text) {
  return make("h3", { className: "kind" }, make("span", { textContent: signOf(kind), "aria-hidden": "true" }), text);
}

/**
 * The sign of a process, beside its name.
 * @param {number | undefined} process
 */
export function processSign(process) {
  return make("span", { className: "process", textContent: String(process ?? ""), "aria-hidden": "true" });
}

/**
 * Who waits where and why nobody wakes them, or the line and the cause of an error.
 * @param {Context} context
 * @param {End} end
 * @param {{ processes: Named[], monitors: Named[] }} told
 */
export function reasonsOf(context, end, told) {
  const waits = (end.final ?? []).map((it) => {
    const why = end.why?.find((reason) => reason.process === it.process);
    return reasonOf(it.process, waitOf(it, told), why && textElement("span", "why", why.text.replace(/^\d+ \S+ since/, "since")));
  });
  const errors = end.line === undefined ? [] : [errorOf(context, end, end.line, told)];
  return waits.length + errors.length ? make("ul", { className: "reasons" }, ...waits, ...errors) : null;
}

/**
 * @param {number | undefined} process
 * @param {...(Node | string | null | undefined)} content
 */
export function reasonOf(process, ...content) {
  return make("li", {}, processSign(process), make("span", {}, ...content));
}

/**
 * @param {Context} context
 * @param {End} end
 * @param {number} line
 * @param {{ processes: Named[] }} told
 */
function errorOf(context, end, line, told) {
  const place = doing(`line ${line}`, () => context.visit(line), { className: "link" });
  const who = end.process === undefined ? "" : `${processOf(told.processes, end.process)}, `;
  return reasonOf(end.process, who, place, end.text ? make("code", { textContent: end.text }) : null, end.cause && textElement("span", "why", end.cause.text));
}

/**
 * A card in a list.
 * @param {string} kind
 * @param {...(Node | null | false | undefined | "")} content
 */
export function card(kind, ...content) {
  return make("li", {}, make("article", { className: `card ${toneOf(kind)}` }, ...content));
}

/**
 * A sentence that stands in place of an answer.
 * @param {string} title
 * @param {string} text
 * @param {...Node} more
 */
export function messageCard(title, text, ...more) {
  return make("article", { className: "card limit message" }, textElement("h2", "kind", title), make("p", { textContent: text }), ...more);
}
