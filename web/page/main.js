// main.js: the page. All that it knows of programs it asks of the explorer, in the words of the command line.
import { missing, moduleOf } from "../program.js";
import { messageCard } from "./cards.js";
import { Desk } from "./desk.js";
import { button, byId, doing, field, isNarrow, make, textElement } from "./dom.js";
import { dropDraft } from "./drafts.js";
import { Editor } from "./editor.js";
import { endsView } from "./ends.js";
import { expectView } from "./expect.js";
import { Explorer } from "./explorer.js";
import { download, listenForFiles } from "./files.js";
import { isProved, listenForKeys, sources, version } from "./keys.js";
import { closeMenus, menu } from "./menus.js";
import { begin, end, notice, progress, say } from "./notices.js";
import { outcomesView } from "./outcomes.js";
import { listen, namedIn, read, wordsOf, write } from "./options.js";
import { pictureView } from "./picture.js";
import { playView } from "./play.js";
import { refusedCard, showProblems } from "./problems.js";
import { fillPrograms } from "./programs.js";
import { isView, makeTabs, selectTab } from "./tabs.js";
import { traceView } from "./trace.js";
import { faultOfAnswer, timeOf } from "./words.js";

/** @typedef {import("./types.js").Answer} Answer */
/** @typedef {import("./types.js").Context} Context */
/** @typedef {import("./types.js").Refusal} Refusal */
/** @typedef {import("./types.js").Schedule} Schedule */
/** @typedef {import("./types.js").ViewName} ViewName */

// How long after a key the program is looked at, and how long what runs by itself may take.
const PAUSE = 300, PATIENCE = 5000;

class Page {
  /** @param {WebAssembly.Module} module */
  constructor(module) {
    this.explorer = new Explorer(module);
    this.editor = new Editor({ changed: () => this.changed(), run: () => this.run(true), stop: () => this.stop() });
    this.desk = new Desk((opening) => this.shown(opening));
    /** @type {ViewName} */
    this.view = "outcomes";
    /** @type {Schedule | null} */
    this.laid = null;
    /** @type {Refusal | null} */
    this.refusal = null;
    this.isPatient = false;
    this.isTooLong = false;
    this.turn = 0;
    this.timer = 0;
    this.problem = 0;
  }

  /** @returns {Context} */
  get context() {
    return {
      ask: (words) => this.ask(words),
      look: (words) => this.glance(words),
      source: () => this.editor.text,
      words: (part, isEndless) => wordsOf(read(), part, isEndless),
      options: read(),
      schedule: this.laid ?? { word: [], again: null, isEndless: false },
      lay: (schedule, view) => {
        this.laid = schedule;
        this.open(view);
      },
      open: (view) => this.open(view),
      refresh: () => void this.refresh(),
      point: (line) => { if (!isNarrow()) this.editor.point(line); },
      visit: (line) => this.visit(line),
      say,
      refusal: this.refusal,
      run: (isAsked) => this.run(isAsked),
    };
  }

  /**
   * Asks what may take long, and shows how far it has come.
   * @param {string[]} words
   * @returns {Promise<Answer>}
   */
  async ask(words) {
    begin(`${words[0]} ..`);
    const answer = await this.explorer.ask(words, this.editor.text, { limit: this.isPatient ? 0 : PATIENCE, tell: progress });
    this.settle();
    this.isTooLong = answer.status === 124;
    if (answer.status !== 130) say(answer.status === 124 ? "not answered: it takes too long" : `${words[0]}: ${timeOf(answer.milliseconds)}`);
    return answer;
  }

  /**
   * Asks what takes a moment, as a rule.
   * @param {string[]} words
   * @returns {Promise<Answer>}
   */
  async glance(words) {
    begin(`${words[0]} ..`);
    const answer = await this.explorer.look(words, this.editor.text, this.isPatient ? 0 : PATIENCE);
    this.settle();
    this.isTooLong = answer.status === 124;
    return answer;
  }

  settle() {
    if (!this.explorer.isBusy) end();
  }

  /** Ends what runs because one asked for it. What waits for a pause in typing still comes. */
  stop() {
    if (!this.explorer.isBusy) return;
    say("stopped");
    this.giveUp();
  }

  /** Ends what runs, since it is about another text or other options: nothing of it is shown any more. */
  abandon() {
    this.turn++;
    byId("panel").removeAttribute("aria-busy");
    this.giveUp();
  }

  /** Ends what runs, since it is of no use any more. */
  giveUp() {
    clearTimeout(this.timer);
    this.explorer.stop();
    end();
  }

  /**
   * A program was opened.
   * @param {import("./desk.js").Opening} opening
   */
  shown(opening) {
    this.abandon();
    closeMenus();
    write(opening.options);
    this.laid = opening.schedule;
    this.editor.set(opening.source);
    if (isView(opening.view) && opening.view !== "source" && this.view !== "source") this.view = opening.view;
    else if (this.view === "ends") this.view = "outcomes";
    this.run(false);
  }

  changed() {
    this.desk.changed(this.editor.text);
    this.abandon();
    this.laid = null;
    this.editor.point(null);
    document.body.dataset.stale = "yes";
    this.timer = setTimeout(() => this.pausedTyping(), PAUSE);
  }

  pausedTyping() {
    if (/** @type {HTMLInputElement} */ (field("as-i-type")).checked) {
      this.run(false);
      return;
    }
    void this.look();
    say("changed: Run answers anew");
  }

  /** Looks where the program is refused, and what is likely to be wrong. Answers whether a view may follow: not if the text is another one by now, or if it was stopped. */
  async look() {
    const source = this.editor.text, turn = this.turn;
    const answer = await this.explorer.look(["refusal", "--json", ...wordsOf(read(), "refusal")], source);
    this.settle();
    if (source !== this.editor.text) return false;
    if (answer.status === 130) {
      if (turn === this.turn) this.showStopped();
      return false;
    }
    try {
      this.refusal = JSON.parse(answer.out);
    } catch {
      this.refusal = null;
      byId("panel").replaceChildren(messageCard("No answer", faultOfAnswer(answer)));
      return true;
    }
    const refusal = /** @type {Refusal} */ (this.refusal);
    showProblems(refusal, (line, column) => this.visit(line, column));
    const fault = refusal.accepted ? [] : [{ line: refusal.line ?? 1, column: refusal.column ?? 1, length: refusal.length ?? 1, kind: /** @type {const} */ ("fault"), sentence: refusal.sentence ?? "" }];
    this.editor.underline([...fault, ...(refusal.hints ?? []).map((hint) => ({ ...hint, kind: /** @type {const} */ ("hint") }))]);
    byId("tab-source").classList.toggle("has-fault", !refusal.accepted);
    return true;
  }

  /**
   * Answers anew.
   * @param {boolean} isAsked Whether one asked for it: then it takes as long as it takes.
   */
  run(isAsked) {
    clearTimeout(this.timer);
    document.body.dataset.stale = "yes";
    this.isPatient = isAsked;
    if (isAsked && this.view === "source") this.view = "outcomes";
    void this.look().then((follows) => { if (follows) this.turnTo(this.view); });
  }

  /**
   * Opens a view because one asked for it, so it takes as long as it takes.
   * @param {ViewName} view
   */
  open(view) {
    this.isPatient = true;
    this.turnTo(view);
  }

  /** @param {ViewName} view */
  turnTo(view) {
    this.view = view;
    selectTab(view);
    if (view !== "source") {
      void this.refresh();
      return;
    }
    delete document.body.dataset.stale;
    this.editor.refresh();
  }

  async refresh() {
    const turn = ++this.turn, panel = byId("panel");
    panel.setAttribute("aria-busy", "true");
    const content = await this.content().catch(() => [messageCard("No answer", "The answer can't be read: it was cut off, perhaps since there is not enough memory. Try smaller --choices.")]);
    if (turn !== this.turn) return;
    panel.removeAttribute("aria-busy");
    delete document.body.dataset.stale;
    panel.className = this.view;
    panel.replaceChildren(...content);
    panel.scrollTop = 0;
    document.body.dataset.shown = this.view;
  }

  /**
   * What the view shows.
   * @returns {Promise<Node[]>}
   */
  async content() {
    if (this.refusal && !this.refusal.accepted) return [refusedCard(this.refusal, (line) => this.visit(line))];
    const context = this.context;
    if (this.view === "outcomes") return this.table(["outcomes", "--json", ...context.words("outcomes")], outcomesView);
    if (this.view === "ends") return this.table(["ends", "--waits", "--json", ...context.words("ends", true)], endsView);
    if (this.view === "expect") return expectView(context);
    if (!this.laid) await this.laySimplest();
    const views = { picture: pictureView, trace: traceView, play: playView };
    return (await views[/** @type {"picture" | "trace" | "play"} */ (this.view)](this.context)) ?? [this.unanswered()];
  }

  /**
   * An answer as cards.
   * @template Told
   * @param {string[]} words
   * @param {(context: Context, told: Told) => Node[]} view
   */
  async table(words, view) {
    const answer = await this.ask(words);
    if (answer.status === 130 || answer.status === 124) return [this.unanswered()];
    if (!answer.out || answer.fault) return [messageCard("No answer", faultOfAnswer(answer))];
    const content = view(this.context, JSON.parse(answer.out));
    const total = content.find((it) => it instanceof HTMLElement && it.className === "total")?.textContent ?? words[0];
    say(`${total}, in ${timeOf(answer.milliseconds)}`);
    return content;
  }

  /**
   * The schedule that is laid out where nobody has named one: the simplest of the first outcome where all wait or an error stops, or else of the first outcome; for a program of schedules of any
   * length that of an end or of a wait.
   */
  async laySimplest() {
    const isEndless = namedIn(this.editor.text).isEndless;
    const known = await this.ask(isEndless ? ["ends", "--waits", "--json", ...this.context.words("ends", true)] : ["outcomes", "--json", ...this.context.words("outcomes")]);
    if (!known.out) return;
    try {
      const told = JSON.parse(known.out), all = isEndless ? [...told.ends, ...(told.waits ?? [])] : (told.known ?? told).outcomes;
      const it = all.find((/** @type {{ kind: string }} */ end) => end.kind === "all-waiting" || end.kind === "run-error") ?? all[0];
      if (it) this.laid = { word: it.simplest ?? it.first ?? it.by, again: it.again?.length ? it.again : null, isEndless };
    } catch {
      // Where there is no outcome the empty schedule is laid out.
    }
  }

  showStopped() {
    this.isTooLong = false;
    delete document.body.dataset.stale;
    byId("panel").replaceChildren(this.unanswered());
  }

  /** What stands where an answer was given up. */
  unanswered() {
    const again = doing("Run without a limit", () => this.run(true), { className: "main" });
    return this.isTooLong
      ? messageCard("Not answered yet", `The answer takes longer than the ${PATIENCE / 1000} seconds that what runs by itself may take. Run it without a limit, or try smaller --choices.`, again)
      : messageCard("Stopped", "There is no answer, since it was stopped.", again);
  }

  /**
   * @param {number} line
   * @param {number} [column]
   */
  visit(line, column) {
    if (isNarrow()) this.open("source");
    this.editor.visit(line, column);
    this.editor.point(line);
  }

  /** The answers take the whole width, or half of it. */
  widen() {
    const isWide = document.body.dataset.wide === undefined;
    if (isWide) document.body.dataset.wide = "yes";
    else delete document.body.dataset.wide;
    button("wide").setAttribute("aria-pressed", String(isWide));
    this.editor.code.refresh();
    if (this.view === "picture") void this.refresh();
  }

  nextProblem() {
    const refusal = this.refusal;
    const all = !refusal ? [] : refusal.accepted ? refusal.hints ?? [] : [refusal];
    const it = all[this.problem++ % Math.max(all.length, 1)];
    if (it?.line) this.visit(it.line, it.column);
    else say("no refusal and no hint");
  }

  focusProgram() {
    if (isNarrow()) this.open("source");
    this.editor.code.focus();
  }

  focusAnswers() {
    if (isNarrow() && this.view === "source") this.open("outcomes");
    byId("panel").focus();
  }

  listen() {
    const current = () => this.editor.text;
    button("run").onclick = () => this.run(true);
    button("stop").onclick = button("progress-stop").onclick = () => this.stop();
    button("save-file").onclick = () => { download(current(), `${this.desk.name}.cp`, "text/plain"); say(`saved as ${this.desk.name}.cp`); };
    button("share").onclick = () => { closeMenus(); void this.desk.share({ name: this.desk.name, source: current(), options: read(), view: this.view, schedule: this.laid }); };
    listen(() => { this.abandon(); this.laid = null; this.desk.changed(current()); this.run(false); }, current);
    listenForFiles({ opened: (name, source) => this.desk.begins(name, source, "file"), refused: (sentence) => notice(sentence, "bad") });
    listenForKeys({ run: () => this.run(true), stop: () => this.stop(), nextProblem: () => this.nextProblem(), focusProgram: () => this.focusProgram(), focusAnswers: () => this.focusAnswers() });
    const drop = (/** @type {string} */ key) => {
      dropDraft(key);
      fill();
      byId("programs-panel").querySelector("input")?.focus();
    };
    const fill = () => fillPrograms({ open: (key) => this.desk.open(key), drop, make: () => this.desk.makeNew(), current: () => this.desk.key });
    menu("programs", fill);
    menu("options");
    menu("more");
    button("open-options").onclick = () => { closeMenus(); /** @type {HTMLButtonElement} */ (document.querySelector("#options > button")).click(); };
    button("wide").onclick = () => this.widen();
    makeTabs((view) => this.open(view));
    /** @type {HTMLAnchorElement} */ (document.querySelector(".skip")).onclick = (event) => { event.preventDefault(); this.focusAnswers(); };
    addEventListener("hashchange", () => { if (location.hash.length > 1) void this.desk.fromAddress(); });
    const print = () => { byId("printed-program").textContent = `${this.desk.name}.cp\n\n${current().split("\n").map((line, place) => `${String(place + 1).padStart(4)}  ${line}`).join("\n")}`; };
    addEventListener("beforeprint", print);
    matchMedia("print").addEventListener("change", print);
    matchMedia("(max-width: 820px)").addEventListener("change", () => { if (!isNarrow() && this.view === "source") this.open("outcomes"); });
  }
}

/**
 * Why the page can't begin.
 * @param {string} sentence
 */
function refuse(sentence) {
  byId("panel").replaceChildren(messageCard("cpx can't run here", sentence));
  byId("about").textContent = `cpx ${version()}`;
  document.body.dataset.ready = "no";
}

/** What this browser lacks, or nothing. */
function lacking() {
  if (missing()) return missing();
  if (typeof Worker !== "function") return "workers";
  try {
    new DecompressionStream("deflate-raw");
    return "";
  } catch {
    return "the compression of addresses";
  }
}

async function main() {
  byId("unproved").hidden = isProved();
  const lacks = lacking();
  if (lacks) {
    refuse(`This browser is too old for this page: it lacks ${lacks}. Chrome 103, Edge 103, Firefox 113, Safari 16.4 and all later ones have it.`);
    return;
  }
  try {
    const module = await moduleOf(byId("program").textContent ?? "");
    byId("program").remove();
    const page = new Page(module);
    page.listen();
    button("run").disabled = false;
    const name = make("span", { textContent: `cpx ${version()}`, title: `sources ${sources()}` });
    byId("about").replaceChildren(name, textElement("span", "wide", `sources ${sources().slice(0, 12)}`), make("span", { textContent: "nothing leaves this page" }));
    await page.desk.begin();
    document.body.dataset.ready = "yes";
  } catch (it) {
    refuse(it instanceof Error ? it.message : String(it));
  }
}

void main();
