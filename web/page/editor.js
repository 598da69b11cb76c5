// editor.js: the editor, over CodeMirror: places that are underlined, a line that is shown, and how a keyboard leaves it.
import { byId, isNarrow, make } from "./dom.js";
import { concurrentPascal } from "./language.js";

/** @typedef {{ line: number, ch: number }} Place */
/**
 * What is used of the editor library.
 * @typedef {object} CodeMirrorEditor
 * @property {() => string} getValue
 * @property {(text: string) => void} setValue
 * @property {() => void} clearHistory
 * @property {() => number} lineCount
 * @property {(line: number) => string | undefined} getLine
 * @property {(name: string, value: unknown) => void} setOption
 * @property {(name: string, does: (...given: any[]) => void) => void} on
 * @property {() => void} focus
 * @property {() => void} refresh
 * @property {() => void} undo
 * @property {() => void} redo
 * @property {(place: Place | null, margin?: number) => void} scrollIntoView
 * @property {(place: Place) => void} setCursor
 * @property {(text: string) => void} replaceSelection
 * @property {() => boolean} somethingSelected
 * @property {(name: string) => void} execCommand
 * @property {(line: number, where: string, name: string) => object} addLineClass Answers the line itself, which keeps its class where lines are put before it.
 * @property {(line: object, where: string, name: string) => void} removeLineClass
 * @property {(from: Place, to: Place, how: object) => { clear: () => void }} markText
 * @property {(line: number, gutter: string, element: HTMLElement | null) => void} setGutterMarker
 * @property {(gutter: string) => void} clearGutter
 * @property {() => HTMLElement} getInputField
 * @property {() => HTMLElement} getWrapperElement
 * @property {(does: () => void) => void} operation
 */
/** @typedef {{ (element: HTMLElement, how: object): CodeMirrorEditor, defineMode: (name: string, mode: () => object) => void }} CodeMirrorLibrary */

// Up to so many lines all are drawn, so that a browser's own search finds them.
const MOST_DRAWN = 1500;

const library = () => /** @type {CodeMirrorLibrary} */ (Reflect.get(globalThis, "CodeMirror"));

export class Editor {
  /** @param {{ changed: () => void, run: () => void, stop: () => void }} does */
  constructor({ changed, run, stop }) {
    const CodeMirror = library();
    CodeMirror.defineMode("cp", concurrentPascal);
    const indent = (/** @type {CodeMirrorEditor} */ it) => (it.somethingSelected() ? it.execCommand("indentMore") : it.replaceSelection("  "));
    const leave = () => {
      this.isLeaving(true);
      stop();
    };
    this.keys = { "Ctrl-Enter": run, "Cmd-Enter": run, Tab: indent, "Shift-Tab": "indentLess", Esc: leave };
    this.code = CodeMirror(byId("editor"), { mode: "cp", lineNumbers: true, lineWrapping: true, indentUnit: 2, tabSize: 2, inputStyle: "contenteditable", gutters: ["CodeMirror-linenumbers", "signs"], extraKeys: this.keys });
    const input = this.code.getInputField();
    input.setAttribute("aria-label", "Program in Concurrent Pascal. Escape and then Tab leaves the editor.");
    input.setAttribute("aria-multiline", "true");
    input.setAttribute("role", "textbox");
    this.code.getWrapperElement().addEventListener("focusout", () => this.isLeaving(false));
    this.code.on("keydown", (_, event) => { if (event.key !== "Tab" && event.key !== "Shift") this.isLeaving(false); });
    this.code.on("renderLine", (_, line, element) => {
      const indented = (/^ */.exec(line.text)?.[0].length ?? 0) + 2;
      element.style.textIndent = `-${indented}ch`;
      element.style.paddingLeft = `calc(8px + ${indented}ch)`;
    });
    this.code.on("change", (_, change) => { if (change.origin !== "setValue") changed(); });
    /** @type {{ clear: () => void }[]} */
    this.marks = [];
    /** @type {object | null} */
    this.pointed = null;
    this.signs();
  }

  /**
   * After Escape the next Tab leaves the editor.
   * @param {boolean} is
   */
  isLeaving(is) {
    this.code.setOption("extraKeys", is ? { ...this.keys, Tab: false, "Shift-Tab": false } : this.keys);
  }

  get text() {
    return this.code.getValue();
  }

  /**
   * Another program, whose changes begin anew.
   * @param {string} text
   */
  set(text) {
    this.point(null);
    this.code.setOption("viewportMargin", text.split("\n").length > MOST_DRAWN ? 10 : Infinity);
    this.code.setValue(text);
    this.code.clearHistory();
    this.code.scrollIntoView({ line: 0, ch: 0 });
  }

  /**
   * Underlines places, each with a sentence.
   * @param {{ line: number, column: number, length: number, kind: "fault" | "hint", sentence: string }[]} places
   */
  underline(places) {
    this.code.operation(() => {
      for (const mark of this.marks) mark.clear();
      this.code.clearGutter("signs");
      this.marks = places.map(({ line, column, length, kind, sentence }) => {
        // What is missing at the end of a line is underlined at its last sign.
        const last = (this.code.getLine(line - 1)?.length ?? 0) - 1;
        const from = { line: line - 1, ch: Math.max(Math.min(column - 1, last), 0) };
        this.code.setGutterMarker(line - 1, "signs", make("span", { className: `sign ${kind}`, title: sentence, role: "img", "aria-label": `${kind === "fault" ? "refused" : "hint"}: ${sentence}` }));
        return this.code.markText(from, { line: from.line, ch: from.ch + Math.max(length, 1) }, { className: kind, title: sentence });
      });
    });
  }

  /**
   * Shows a line, or none.
   * @param {number | null} line
   */
  point(line) {
    if (this.pointed !== null) this.code.removeLineClass(this.pointed, "background", "here");
    this.pointed = line === null ? null : this.code.addLineClass(line - 1, "background", "here");
    if (line !== null) this.code.scrollIntoView({ line: line - 1, ch: 0 }, 80);
  }

  /**
   * Puts the cursor at a place.
   * @param {number} line
   * @param {number} [column]
   */
  visit(line, column = 1) {
    this.code.refresh();
    this.code.setCursor({ line: line - 1, ch: column - 1 });
    this.code.scrollIntoView(null, 80);
    this.code.focus();
  }

  // Signs that a telephone's keyboard hides.
  signs() {
    const put = (/** @type {string} */ text) => make("button", { type: "button", textContent: text, "aria-label": `put ${text}`, onclick: () => { this.code.replaceSelection(text); this.code.focus(); } });
    const act = (/** @type {string} */ name, /** @type {() => void} */ does) => make("button", { type: "button", textContent: name, onclick: () => { does(); this.code.focus(); } });
    byId("touch-keys").append(act("Undo", () => this.code.undo()), act("Redo", () => this.code.redo()), ...[":=", ";", "(", ")", "[", "]", '"'].map(put));
  }

  /** What is drawn anew when the editor comes into sight. */
  refresh() {
    if (isNarrow()) this.code.refresh();
  }
}
