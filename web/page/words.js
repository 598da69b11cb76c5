// words.js: sentences, in the words of the command line and of docs/SHOW.md.

/** @typedef {import("./types.js").Answer} Answer */
/** @typedef {import("./types.js").Named} Named */
/** @typedef {import("./types.js").Waiting} Waiting */
/** @typedef {import("./types.js").Outcomes} Outcomes */
/** @typedef {import("./types.js").Ends} Ends */
/** @typedef {import("./types.js").End} End */
/** @typedef {import("./types.js").Options} Options */

// The greatest values of these options.
const MOST_CHOICES = 100, MOST_STEPS = 100000;

/**
 * The numbers of a schedule.
 * @param {number[]} word
 */
export const spelled = (word) => (word.length ? word.join(".") : "none");

/**
 * A number with a comma between each three digits.
 * @param {number | string} number
 */
export const grouped = (number) => String(number).replace(/\B(?=(\d{3})+$)/g, ",");

/**
 * @param {number | string} number
 * @param {string} one
 * @param {string} [many]
 */
export const counted = (number, one, many = `${one}s`) => `${grouped(number)} ${String(number) === "1" ? one : many}`;

/**
 * What is displayed: `output 0 1`.
 * @param {string} output
 */
export const outputOf = (output) => `output ${output}`;

/**
 * A process, by its number and its name.
 * @param {Named[]} processes
 * @param {number} process
 */
export const processOf = (processes, process) => `${process} ${processes[process]?.name ?? ""}`;

/**
 * Where a process waits at an end.
 * @param {Waiting} it
 * @param {{ processes: Named[], monitors: Named[] }} told
 */
export function waitOf(it, { processes, monitors }) {
  const monitor = (/** @type {number} */ number) => monitors[number]?.name ?? "";
  const place = it.is === "delayed" ? `waits in ${monitor(it.monitor)}.${it.queue}` : `waits at the gate of ${monitor(it.monitor)}`;
  return `${processOf(processes, it.process)} ${place}${it.inside.length ? `, inside ${it.inside.map(monitor).join(" and ")}` : ""}`;
}

/**
 * The heading of all outcomes.
 * @param {Outcomes} told
 */
export function headingOf(told) {
  return `${counted(told.schedules, "schedule")}, ${counted(told.outcomes.length, "outcome")}${told.signals ? `, signals ${told.signals}` : ""}`;
}

/**
 * Whether these are all outcomes, as the last line of `outcomes` says it.
 * @param {Outcomes} told
 * @param {Options} options
 */
export function completeness(told, options) {
  if (told.complete) return "complete: the same for every greater number of choices and of steps";
  return `not complete: ${told.limits.map(({ kind, count }) => `${count} ${String(count) === "1" ? "schedule" : "schedules"} ended as ${kind}${adviceAt(kind, options)}`).join(", ")}`;
}

/**
 * @param {string} kind
 * @param {Options} options
 */
function adviceAt(kind, options) {
  if (kind === "choice-limit") return Number(options.choices || MOST_CHOICES) < MOST_CHOICES ? " (try greater --choices)" : " (./show ends tells of schedules of any length)";
  if (kind === "step-limit") return Number(options.steps || 1000) < MOST_STEPS ? " (try greater --steps, or ./show ends for a loop that never ends)" : " (./show ends tells a loop that never ends)";
  return " (a run displays at most 1000 values)";
}

/**
 * Why a search was given up and what to try, as `outcomes` says it.
 * @param {{ too_many: string, states: number }} told
 */
export function excessOf({ too_many, states }) {
  return too_many === "states" ? [`too many states: a layer may have ${states}`, "try greater --states, or ./show ends"] : ["too many outcomes: there may be 50000", "try smaller --choices"];
}

/**
 * What is said last of schedules of any length.
 * @param {Ends} told
 * @param {Options} options
 */
export function endsCompleteness(told, options) {
  if (told.too_many) return `too many states: there may be ${told.states}`;
  if (!told.complete) return `not complete: a stretch ends as step-limit${Number(options.steps || 1000) < MOST_STEPS ? " (try greater --steps)" : " (no greater --steps can be tried)"}`;
  const how = told.at_once ? " with kernel calls at once" : "";
  const end = told.ends.length ? "schedules of any length end so or go on for ever" : "no schedule of any length ends";
  return `complete${how}: ${told.states} ${told.states === 1 ? "state" : "states"}, and ${end}`;
}

/**
 * What an end is, in one phrase.
 * @param {End} end
 * @param {{ processes: Named[], signals?: string }} told
 */
export function endOf(end, told) {
  if (end.kind === "run-error") return `run-error ${end.name ?? ""}`;
  const process = end.process === undefined ? "" : processOf(told.processes, end.process);
  if (end.kind === "alone") return `alone: ${process} goes on for ever, ${told.signals ? "by itself or in turns, without a choice" : "and nobody else can"}`;
  if (end.kind === "spins") return `spins: ${process} goes on for ever without a call, and nobody else does`;
  return end.kind;
}

/**
 * What the sign before a kind of end is.
 * @param {string} kind
 */
export function signOf(kind) {
  return { finished: "✓", "all-waiting": "■", "run-error": "✕", holds: "✓", fails: "✕", alone: "↻", spins: "↻", waits: "◷" }[kind] ?? "…";
}

/**
 * The class of a kind's colour.
 * @param {string} kind
 */
export function toneOf(kind) {
  return { finished: "good", holds: "good", "all-waiting": "bad", "run-error": "bad", fails: "bad" }[kind] ?? "limit";
}

/**
 * Why there is no answer, as a sentence.
 * @param {Answer} answer
 */
export function faultOfAnswer(answer) {
  if (answer.status === 130) return "Stopped.";
  if (answer.fault) return answer.fault;
  if (answer.status === 3) return "There is not enough memory. A browser gives this program four gigabytes at most: try smaller --choices or --states.";
  return (answer.err || answer.out).trim() || `The explorer ended with status ${answer.status} and said nothing.`;
}

/** @param {number} milliseconds */
export function timeOf(milliseconds) {
  return milliseconds < 1000 ? `${Math.max(1, Math.round(milliseconds))} ms` : `${(milliseconds / 1000).toFixed(1)} s`;
}
