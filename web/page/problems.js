// problems.js: why a program is refused, with the rule's own text, and hints.
import { byId, dataOf, doing, make, textElement, withCode } from "./dom.js";

/** @typedef {import("./types.js").Refusal} Refusal */
/** @typedef {import("./types.js").Rules} Rules */
/** @typedef {import("./types.js").RulePart} RulePart */

/**
 * The text of a rule, to be unfolded.
 * @param {string | undefined} code
 */
export function ruleText(code) {
  const rule = code ? /** @type {Rules} */ (dataOf("rules"))[code] : undefined;
  if (!rule) return null;
  return make("details", { className: "rule" }, make("summary", { textContent: `Rule ${code}: ${rule.title}` }), ...rule.parts.map(partOf));
}

/** @param {RulePart} part */
function partOf(part) {
  if (part.is === "text") return make("p", {}, ...withCode(part.text));
  if (part.is === "table") {
    const row = (/** @type {string[]} */ cells, /** @type {"th" | "td"} */ tag) => make("tr", {}, ...cells.map((cell) => make(tag, {}, ...withCode(cell))));
    return make("table", {}, make("thead", {}, row(part.rows[0], "th")), make("tbody", {}, ...part.rows.slice(1).map((cells) => row(cells, "td"))));
  }
  const names = ["breaks it", "keeps it"];
  return make("div", { className: "programs" }, ...part.lines.map((line, place) => make("figure", {}, make("figcaption", { textContent: names[place] ?? "" }), make("pre", { textContent: line }))));
}

/**
 * The sentence of a refusal without the rule's code, which stands below.
 * @param {Refusal} refusal
 */
export const sentenceOf = (refusal) => (refusal.sentence ?? "").replace(/ \(rule C\d+\)$/, "");

/**
 * Shows a refusal, or hints, below the editor.
 * @param {Refusal} refusal
 * @param {(line: number, column?: number) => void} visit
 */
export function showProblems(refusal, visit) {
  const place = (/** @type {{ line?: number, column?: number }} */ it) => doing(`line ${it.line}`, () => visit(it.line ?? 1, it.column ?? 1), { className: "link" });
  const all = byId("problems"), hints = refusal.hints ?? [];
  all.className = refusal.accepted ? (hints.length ? "hinted" : "") : "bad";
  if (!refusal.accepted) {
    const rule = ruleText(refusal.rule) ?? textElement("p", "soft", refusal.hint ?? "");
    all.replaceChildren(make("p", {}, textElement("span", "tag", "refused"), place(refusal), make("b", { textContent: sentenceOf(refusal) })), rule);
    return;
  }
  if (!hints.length) {
    all.replaceChildren(make("p", {}, textElement("span", "tag", "accepted"), textElement("span", "soft", "no hints")));
    return;
  }
  const items = hints.map((hint) => make("li", {}, place(hint), make("span", { textContent: hint.sentence })));
  const more = refusal.more ? [make("li", { textContent: `and ${refusal.more} more` })] : [];
  const count = textElement("span", "tag", hints.length === 1 ? "1 hint" : `${hints.length} hints`);
  all.replaceChildren(make("p", {}, count, textElement("span", "soft", "accepted, and perhaps not what is meant:")), make("ul", {}, ...items, ...more));
}

/**
 * A refusal as the whole of a view.
 * @param {Refusal} refusal
 * @param {(line: number) => void} visit
 */
export function refusedCard(refusal, visit) {
  const rule = ruleText(refusal.rule);
  if (rule) rule.open = true;
  return make("article", { className: "card bad" },
    make("div", { className: "card-head" }, textElement("h2", "kind", "✕ refused"), doing(`line ${refusal.line}`, () => visit(refusal.line ?? 1), { className: "link" })),
    textElement("p", "lead", sentenceOf(refusal)), rule ?? textElement("p", "soft", refusal.hint ?? ""));
}
