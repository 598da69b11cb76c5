// keys.js: the keys, and the dialog that lists them and says what the page is.
import { button, byId, make, textElement } from "./dom.js";
import { dialog } from "./notices.js";

/** @type {[string, string][]} */
const KEYS = [
  ["Ctrl Enter", "run, without a limit of time"],
  ["Esc", "stop what runs; in the editor the next Tab then leaves it"],
  ["F6", "go from the program to the answers, and back"],
  ["F8", "go to the next refusal or hint"],
  ["Ctrl S", "save the program as a file"],
  ["Ctrl O", "open a file"],
  ["← →", "in the row of views: the view before, the next view"],
  ["↑ ↓", "in a trace and in the menu of programs: the row above, the row below"],
  ["?", "this list, outside of fields"],
];

/** @param {string} name */
const meta = (name) => /** @type {HTMLMetaElement} */ (document.querySelector(`meta[name="${name}"]`)).content;

export const isProved = () => meta("cpx-proved") === "yes";
export const version = () => meta("cpx-version");
export const sources = () => meta("cpx-sources");

export function showKeys() {
  const claim = isProved()
    ? "This is the program that was proved, compiled for the browser. The compiler and the browser are trusted, and the page around it is only tested."
    : "The program in this page is not proved: this page is for trying.";
  dialog("Keys", make("dl", { className: "keys" }, ...KEYS.flatMap(([keys, does]) => [make("dt", {}, ...keys.split(" ").map((key) => make("kbd", { textContent: key }))), make("dd", { textContent: does })])),
    make("h2", { textContent: "This page" }),
    make("p", { textContent: `${claim} It loads nothing, and sends nothing: programs stay in this browser.` }),
    make("dl", { className: "keys" }, ...[["version", version()], ["sources", sources()]].flatMap(([name, value]) => [make("dt", { textContent: name }), textElement("dd", "mono", value)])),
    textElement("p", "soft", "The editor is CodeMirror, by Marijn Haverbeke and others, under the MIT license."));
}

/** @param {{ run: () => void, stop: () => void, nextProblem: () => void, focusProgram: () => void, focusAnswers: () => void }} does */
export function listenForKeys(does) {
  button("show-keys").onclick = showKeys;
  addEventListener("keydown", (event) => {
    const isMain = event.ctrlKey || event.metaKey;
    const isTyping = event.target instanceof HTMLElement && (event.target.isContentEditable || /^(INPUT|TEXTAREA|SELECT)$/.test(event.target.tagName));
    const isModal = /** @type {HTMLDialogElement} */ (byId("dialog")).open;
    if (isModal || event.defaultPrevented) return;
    const act = isMain && event.key === "Enter" ? does.run
      : event.key === "Escape" ? does.stop
      : event.key === "F6" ? (byId("source").contains(document.activeElement) ? does.focusAnswers : does.focusProgram)
      : event.key === "F8" ? does.nextProblem
      : isMain && event.key.toLowerCase() === "s" && !event.shiftKey ? () => button("save-file").click()
      : isMain && event.key.toLowerCase() === "o" && !event.shiftKey ? () => button("open-file").click()
      : event.key === "?" && !isTyping && !isMain ? showKeys
      : null;
    if (!act) return;
    if (event.key !== "Escape") event.preventDefault();
    act();
  });
}
