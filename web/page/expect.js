// expect.js: expectations, each with its answer and the schedule against it.
import { card, kindHeading, messageCard } from "./cards.js";
import { doing, make, textElement } from "./dom.js";
import { ways } from "./schedules.js";
import { faultOfAnswer, timeOf } from "./words.js";

/** @typedef {import("./types.js").Context} Context */
/** @typedef {import("./types.js").Mark} Mark */
/** @typedef {import("./types.js").Answer} Answer */
/** @typedef {import("./types.js").Expectation} Expectation */

const READY = ["never all-waiting", "only finished", "never run-error", "some finished"];
const READY_ENDLESS = ["never all-waiting", "never waiting", "never run-error"];
const HELP = [
  ["never all-waiting", "no schedule ends with all waiting"],
  ["only finished", "every schedule ends as finished"],
  ["only finished output 1 2", "every schedule ends so, and displays 1 and 2"],
  ["never run-error", "no schedule ends in a run error"],
  ["some finished", "some schedule ends as finished"],
  ["never shown 99", "no schedule displays 99"],
  ["only finished or all-waiting barber", "at an end nobody but the barber waits"],
  ["never waiting reader", "of any length: no reader may wait for ever while others go on"],
];
const asked = { text: "never all-waiting", isEndless: false, isAnswered: false };

/** @param {string} source */
const hasOwn = (source) => /"\s*\(\*\s*expect\b/.test(source);

/**
 * @param {Context} context
 * @returns {Promise<Node[]>}
 */
export async function expectView(context) {
  const input = make("input", { className: "mono", value: asked.text, "aria-label": "Expectation", spellcheck: false, autocomplete: "off" });
  const endless = make("input", { type: "checkbox", checked: asked.isEndless, onchange: () => { Object.assign(asked, { isEndless: endless.checked, text: input.value.trim() }); context.refresh(); } });
  const answers = make("div", { className: "answers", "aria-live": "polite" });
  const ask = async (/** @type {boolean} */ isOwn) => {
    Object.assign(asked, { text: input.value.trim(), isEndless: endless.checked, isAnswered: true });
    const words = isOwn || !asked.text ? [] : [asked.text];
    const answer = await context.ask(["mark", "--json", ...(asked.isEndless ? ["--ends"] : []), ...words, ...context.words("mark", asked.isEndless)]);
    answers.replaceChildren(...answered(context, answer, asked.isEndless));
  };
  const ready = (asked.isEndless ? READY_ENDLESS : READY).map((text) => doing(text, () => { input.value = text; void ask(false); }, { className: "chip mono" }));
  const put = (/** @type {string} */ text) => doing(text, () => { input.value = text; input.focus(); }, { className: "chip mono" });
  const help = make("details", {}, make("summary", { textContent: "What can be expected" }),
    make("dl", {}, ...HELP.flatMap(([text, means]) => [make("dt", {}, put(text)), make("dd", { textContent: means })])),
    textElement("p", "soft", "Several are joined by and. docs/SHOW.md has all."));
  const own = hasOwn(context.source());
  if (own) void ask(true);
  else if (asked.isAnswered) void ask(false);
  return [
    textElement("h2", "total", "What do you expect of every schedule?"),
    make("form", { className: "bar", onsubmit: (/** @type {Event} */ event) => { event.preventDefault(); void ask(false); } },
      make("label", { className: "grow" }, input), textElement("button", "main", "Ask"), own ? doing("Ask what the program expects", () => void ask(true)) : null),
    make("div", { className: "row chips" }, ...ready, make("label", { className: "check" }, endless, "schedules of any length")),
    answers, help,
  ];
}

/**
 * @param {Context} context
 * @param {Answer} answer
 * @param {boolean} isEndless
 * @returns {Node[]}
 */
function answered(context, answer, isEndless) {
  /** @type {Mark | null} */
  let mark = null;
  try {
    mark = JSON.parse(answer.out);
  } catch {
    if (answer.status === 124) return [messageCard("Not answered yet", "The answer takes longer than what runs by itself may take.", doing("Run without a limit", () => context.run(true), { className: "main" }))];
    return [messageCard(answer.status === 130 ? "Stopped" : "No answer", faultOfAnswer(answer))];
  }
  if (!mark) return [];
  if (mark.misread) return [messageCard("This can't be asked", mark.misread)];
  context.say(`${mark.verdict}, in ${timeOf(answer.milliseconds)}`);
  const notes = mark.notes ?? [];
  const cards = (mark.expectations ?? []).map((it) => expectationCard(context, it, isEndless));
  const closing = mark.verdict === "holds" ? [textElement("p", "closing good", holdsFor(mark, isEndless))] : [];
  return [make("ol", { className: "cards" }, ...cards), ...notes.map((it) => textElement("p", "note limit", it)), ...closing];
}

/**
 * @param {Mark} mark
 * @param {boolean} isEndless
 */
function holdsFor(mark, isEndless) {
  if (isEndless) return "for schedules of any length";
  return mark.complete ? "complete: the same for every greater number of choices" : "shown by a schedule, though others ended at a limit";
}

/**
 * @param {Context} context
 * @param {Expectation} it
 * @param {boolean} isEndless
 */
function expectationCard(context, it, isEndless) {
  const lines = (it.said ?? "").split("\n").map((line) => make("p", { textContent: line.trim() }));
  return card(it.verdict,
    make("div", { className: "card-head" }, kindHeading(it.verdict, it.verdict), textElement("code", "output", it.expectation)),
    it.said ? make("div", { className: "soft" }, ...lines) : null,
    it.first ? make("div", { className: "ways" }, ways(context, it.verdict === "holds" ? "shown by" : "against it", { word: it.first, again: it.again ?? null, isEndless })) : null);
}
