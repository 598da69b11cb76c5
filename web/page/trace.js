// trace.js: a schedule in words, a row for each event. A row leads to its line of the program.
import { messageCard, processSign } from "./cards.js";
import { doing, make, textElement } from "./dom.js";
import { download } from "./files.js";
import { scheduleBar, scheduleWords } from "./schedules.js";
import { faultOfAnswer, processOf, spelled } from "./words.js";

/** @typedef {import("./types.js").Context} Context */
/** @typedef {import("./types.js").Trace} Trace */
/** @typedef {import("./types.js").Event} Event */

/**
 * @param {Context} context
 * @returns {Promise<Node[] | null>}
 */
export async function traceView(context) {
  const words = ["trace", ...scheduleWords(context.schedule), ...context.words("trace", context.schedule.isEndless)];
  const [plain, data] = await Promise.all([context.look(words), context.look([...words, "--json"])]);
  if ([plain, data].some((it) => it.status === 130 || it.status === 124)) return null;
  const failed = [plain, data].find((it) => !it.out || it.fault);
  if (failed) return [scheduleBar(context, "trace"), messageCard("No trace", faultOfAnswer(failed))];
  const trace = /** @type {Trace} */ (JSON.parse(data.out));
  const lines = plain.out.replace(/\n$/, "").split("\n");
  const round = lines.indexOf("again and again:");
  if (round >= 0) lines.splice(round, 1);
  const rows = trace.events.map((event, place) => rowOf(context, trace, event, lines[place], place));
  if (round >= 0 && rows[round]) rows.splice(round, 0, make("tr", { className: "heading" }, make("th", { colSpan: 6, scope: "colgroup", textContent: "again and again:" })));
  const heads = ["", "choice", "process", "line", "what happens", "what has changed"].map((name, place) => make("th", { scope: "col", className: COLUMNS[place], textContent: name || "event" }));
  const caption = textElement("caption", "visually-hidden", `Trace of schedule ${spelled(context.schedule.word)}`);
  const table = make("table", { className: "trace" }, caption, make("thead", {}, make("tr", {}, ...heads)), make("tbody", {}, ...rows));
  table.onkeydown = (event) => step(table, event);
  const save = doing("Save as text", () => download(plain.out, "trace.txt", "text/plain"));
  const ending = make("div", { className: "ending" }, ...lines.slice(trace.events.length).map((line) => make("p", { textContent: line })));
  return [scheduleBar(context, "trace", save), make("div", { className: "table-whole" }, table), ending];
}

const COLUMNS = ["event", "choice", "who", "line", "what", "changed"];

/**
 * @param {Context} context
 * @param {Trace} trace
 * @param {Event} event
 * @param {string} line
 * @param {number} place
 */
function rowOf(context, trace, event, line, place) {
  const { choice, what, changed } = partsOf(trace, event, line, place);
  const number = event.line;
  const row = make("tr", { className: choice ? "chosen" : "" },
    textElement("td", "event", String(place + 1)),
    textElement("td", "choice", choice),
    make("td", { className: "who" }, processSign(event.process), make("span", {}, textElement("span", "visually-hidden", `${event.process} `), trace.processes[event.process]?.name ?? "")),
    make("td", { className: "line" }, number === undefined ? "" : lineButton(context, number)),
    textElement("td", "what", what),
    textElement("td", "changed", changed));
  row.onclick = () => {
    for (const it of row.parentElement?.querySelectorAll(".here") ?? []) it.classList.remove("here");
    row.classList.add("here");
    if (number !== undefined) context.point(number);
  };
  return row;
}

/**
 * @param {Context} context
 * @param {number} line
 */
function lineButton(context, line) {
  return doing(String(line), () => context.visit(line), { className: "link", "aria-label": `line ${line}`, onfocus: () => context.point(line) });
}

/**
 * The columns of a line of the trace, as the explorer wrote it. Where sentences below name events, each line begins with its number.
 * @param {Trace} trace
 * @param {Event} event
 * @param {string} line
 * @param {number} place
 */
function partsOf(trace, event, line, place) {
  const between = event.choice && event.choice.options.some((it) => it > 9) ? "," : "";
  const choice = event.choice ? `${event.choice.number} of ${event.choice.options.join(between)}` : "";
  const process = processOf(trace.processes, event.process), number = line.trimStart().startsWith(choice || process) ? "" : String(place + 1);
  let rest = line.trimStart();
  for (const part of [number, choice, process, event.line === undefined ? "" : `line ${event.line}`]) rest = part && rest.startsWith(part) ? rest.slice(part.length).trimStart() : rest;
  const [what, ...changed] = rest.split(/\s{2,}/);
  return { choice, what, changed: changed.join(", ") };
}

/**
 * Arrows go from row to row.
 * @param {HTMLTableElement} table
 * @param {KeyboardEvent} event
 */
function step(table, event) {
  const by = { ArrowDown: 1, ArrowUp: -1 }[event.key];
  const all = /** @type {HTMLElement[]} */ ([...table.querySelectorAll("td.line button")]);
  const at = all.indexOf(/** @type {HTMLElement} */ (document.activeElement));
  if (!by || at < 0 || !all[at + by]) return;
  event.preventDefault();
  all[at + by].focus();
  all[at + by].closest("tr")?.click();
}
