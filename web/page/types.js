// types.js: what the explorer writes as JSON, as docs/SHOW.md has it, and what the page knows.

/** @typedef {{ name: string, type: string }} Named A process or a monitor. Elsewhere each is a number, its place in its list. */
/** @typedef {{ process: number, is: string, monitor: number, queue?: string, inside: number[] }} Waiting Who waits at an end, and where. */
/** @typedef {{ process: number, text: string }} Why Why nobody wakes a process. */
/** @typedef {{ kind: string, name?: string, process?: number, line?: number, text?: string, cause?: { text: string }, final?: Waiting[], why?: Why[] }} End How a schedule ends. */
/** @typedef {End & { number: number, share: string, count: number | string, output: string, first: number[], simplest?: number[], switches?: number }} Outcome */
/** @typedef {{ kind: string, count: number | string }} Stopped How many schedules ended at a limit. */
/** @typedef {{ processes: Named[], monitors: Named[], signals?: string, schedules: number | string, outcomes: Outcome[], complete: boolean, limits: Stopped[] }} Outcomes */
/** @typedef {{ too_many: string, states: number, choices: number, known: Outcomes }} TooMany */
/** @typedef {End & { number: number, first?: number[], by?: number[] }} NumberedEnd */
/** @typedef {{ number: number, process: number, how: string, others: number[], first: number[], again: number[], final: Waiting[] }} Wait A process that may wait for ever. */
/** @typedef {{ value: string, first?: number[], by?: number[] }} Value */
/** @typedef {{ processes: Named[], monitors: Named[], signals?: string, states: number, complete: boolean, ends: NumberedEnd[], shown: Value[], more?: unknown, waits?: Wait[], at_once?: boolean, too_many?: string, choices?: number }} Ends */
/** @typedef {{ expectation: string, verdict: string, said?: string, first?: number[], again?: number[], kind?: string }} Expectation */
/** @typedef {{ misread?: string, verdict: string, expectations?: Expectation[], notes?: string[], complete?: boolean, too_many?: string }} Mark */
/** @typedef {{ line: number, column: number, length: number, sentence: string }} Hint */
/** @typedef {{ accepted: boolean, hints?: Hint[], more?: number, line?: number, column?: number, length?: number, rule?: string, sentence?: string, hint?: string }} Refusal */
/** @typedef {{ process: number, line?: number, event: string, choice?: { number: number, options: number[] } }} Event */
/** @typedef {{ processes: Named[], monitors: Named[], events: Event[], end: { is: string, kind?: string }, again?: number }} Trace */

/** @typedef {{ choices: string, states: string, steps: string, gates: string, signals: string }} Options What the form has; nothing is as usual. */
/** @typedef {{ word: number[], again: number[] | null, isEndless: boolean }} Schedule A schedule that is laid out; endless where it came of schedules of any length. */
/** @typedef {{ status: number, out: string, err: string, fault: string, milliseconds: number }} Answer How the explorer answered. */
/** @typedef {{ is: "text", text: string } | { is: "table", rows: string[][] } | { is: "programs", lines: string[] }} RulePart */
/** @typedef {Record<string, { title: string, parts: RulePart[] }>} Rules */
/** @typedef {"source" | "outcomes" | "picture" | "trace" | "play" | "expect" | "ends"} ViewName */

/**
 * What a view may ask and do.
 * @typedef {object} Context
 * @property {(words: string[]) => Promise<Answer>} ask Asks what may take long; what was asked before is given up.
 * @property {(words: string[]) => Promise<Answer>} look Asks what takes a moment.
 * @property {() => string} source
 * @property {(part: string, isEndless?: boolean) => string[]} words The words of the options that a part takes.
 * @property {Options} options
 * @property {Schedule} schedule
 * @property {(schedule: Schedule, view: ViewName) => void} lay Lays out a schedule in a view.
 * @property {(view: ViewName) => void} open
 * @property {() => void} refresh Shows the view again.
 * @property {(line: number) => void} point Marks a line of the program, and shows it.
 * @property {(line: number) => void} visit Goes to a line of the program.
 * @property {(text: string) => void} say Says a sentence in the line below, also to a reader of screens.
 * @property {Refusal | null} refusal Why the program is refused, or its hints.
 * @property {(isAsked: boolean) => void} run Answers anew, without a limit of time where one asks for it.
 */
export {};
