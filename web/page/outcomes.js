// outcomes.js: the outcomes of all schedules, as cards. More than a hundred are grouped by kind and cut.
import { card, kindHeading, reasonsOf } from "./cards.js";
import { doing, make, textElement } from "./dom.js";
import { ways } from "./schedules.js";
import { completeness, counted, endOf, excessOf, headingOf, outputOf, toneOf } from "./words.js";

/** @typedef {import("./types.js").Context} Context */
/** @typedef {import("./types.js").Outcome} Outcome */
/** @typedef {import("./types.js").Outcomes} Outcomes */
/** @typedef {import("./types.js").TooMany} TooMany */

const USUAL_STATES = 200000;
const MOST_UNGROUPED = 100, MOST_OF_A_GROUP = 20, MORE_AT_ONCE = 100;

/**
 * @param {Context} context
 * @param {Outcomes | TooMany} answer
 * @returns {Node[]}
 */
export function outcomesView(context, answer) {
  const told = "known" in answer ? answer.known : answer;
  const isMany = told.outcomes.length > MOST_UNGROUPED;
  return [
    ...("known" in answer ? [excessNote(context, answer)] : []),
    textElement("h2", "total", headingOf(told)),
    textElement("p", `closing ${told.complete ? "good" : "limit"}`, completeness(told, context.options)),
    ...(told.outcomes.some((it) => !it.simplest) ? [textElement("p", "soft", `simplest schedules: not searched, with more than ${context.options.states || USUAL_STATES} states`)] : []),
    overview(told),
    ...(isMany ? groupsOf(context, told) : [make("ol", { className: "cards" }, ...told.outcomes.map((it) => outcomeCard(context, it, told)))]),
  ];
}

/**
 * Why not all schedules were searched.
 * @param {Context} context
 * @param {TooMany} answer
 */
function excessNote(context, answer) {
  const [what, advice] = excessOf(answer);
  return make("div", { className: "note limit" },
    make("p", {}, make("b", { textContent: what })),
    make("p", { textContent: `${advice}. What follows is of all schedules of at most ${answer.choices} choices.` }),
    doing("Ask for schedules of any length", () => context.open("ends")));
}

/**
 * How much of all something is, from 0 to 100; counts may have hundreds of digits.
 * @param {number | string} count
 * @param {number | string} all
 */
function percentOf(count, all) {
  return BigInt(all) === 0n ? 0 : Number((BigInt(count) * 10000n) / BigInt(all)) / 100;
}

/**
 * All outcomes in one bar; the list below says the same.
 * @param {Outcomes} told
 */
function overview(told) {
  const bar = make("div", { className: "overview", "aria-hidden": "true" });
  for (const it of told.outcomes.slice(0, MOST_UNGROUPED)) {
    const part = make("i", { className: toneOf(it.kind), title: `${it.number}. ${it.kind} ${outputOf(it.output)}: ${it.share}` });
    part.style.flexGrow = String(Math.max(percentOf(it.count, told.schedules), 0.4));
    bar.append(part);
  }
  return bar;
}

/**
 * @param {Context} context
 * @param {Outcome} it
 * @param {Outcomes} told
 */
function outcomeCard(context, it, told) {
  const fill = make("i");
  fill.style.width = `${Math.max(percentOf(it.count, told.schedules), 0.4)}%`;
  const first = spelledSchedule(it.first), simplest = it.simplest && spelledSchedule(it.simplest);
  const isSame = simplest && String(it.first) === String(it.simplest);
  const switches = it.switches === undefined ? "" : counted(it.switches, "switch", "switches");
  return card(it.kind,
    make("div", { className: "card-head" }, textElement("span", "number", `${it.number}.`), kindHeading(it.kind, endOf(it, told)),
      textElement("code", "output", outputOf(it.output)), textElement("span", "share", it.share)),
    make("div", { className: "bar-of-share", "aria-hidden": "true" }, fill),
    textElement("p", "soft count-of", counted(it.count, "schedule")),
    reasonsOf(context, it, told),
    make("div", { className: "ways" }, simplest && !isSame && ways(context, "simplest", simplest, switches), ways(context, isSame ? "first and simplest" : "first", first, isSame ? switches : "")));
}

/** @param {number[]} word */
const spelledSchedule = (word) => ({ word, again: null, isEndless: false });

/**
 * @param {Context} context
 * @param {Outcomes} told
 */
function groupsOf(context, told) {
  /** @type {Map<string, Outcome[]>} */
  const groups = new Map();
  for (const it of told.outcomes) {
    const name = endOf(it, told);
    groups.set(name, [...(groups.get(name) ?? []), it]);
  }
  const note = `These are more than ${MOST_UNGROUPED} outcomes, so they are grouped by their kinds, and of each kind the first ${MOST_OF_A_GROUP} are shown.`;
  return [textElement("p", "note", note), ...[...groups].map(([name, list]) => groupOf(context, told, name, list))];
}

/**
 * @param {Context} context
 * @param {Outcomes} told
 * @param {string} name
 * @param {Outcome[]} list
 */
function groupOf(context, told, name, list) {
  const cards = make("ol", { className: "cards" }), said = make("p", { className: "soft", role: "status" });
  const all = list.reduce((sum, it) => sum + BigInt(it.count), 0n);
  let shown = 0;
  const more = doing("", () => show(MORE_AT_ONCE));
  const show = (/** @type {number} */ count) => {
    cards.append(...list.slice(shown, shown + count).map((it) => outcomeCard(context, it, told)));
    shown = Math.min(shown + count, list.length);
    said.textContent = shown < list.length ? `${counted(shown, "outcome")} of ${list.length} are shown.` : `All ${counted(list.length, "outcome")} are shown.`;
    more.hidden = shown >= list.length;
    more.textContent = `Show ${Math.min(MORE_AT_ONCE, list.length - shown)} more`;
  };
  show(MOST_OF_A_GROUP);
  return make("section", { className: "group" }, make("h2", { textContent: `${name}: ${counted(list.length, "outcome")}, ${counted(String(all), "schedule")}` }), cards, make("div", { className: "row" }, said, more));
}
