// notices.js: what is said of the page itself: sentences above the program, the line below, and how far long work has come.
import { button, byId, doing, make } from "./dom.js";

/**
 * Says a sentence above the program until it is closed.
 * @param {string} text
 * @param {"bad" | "plain"} tone
 * @param {...HTMLElement} actions
 */
export function notice(text, tone, ...actions) {
  /** @type {HTMLElement} */
  const it = make("div", { className: `notice ${tone}` }, make("p", { textContent: text }), ...actions, doing("×", () => it.remove(), { className: "close", "aria-label": "Close this notice" }));
  for (const action of actions) action.addEventListener("click", () => it.remove());
  byId("notices").replaceChildren(it);
}

export function dismissNotices() {
  byId("notices").replaceChildren();
}

/**
 * Says a sentence in the line below.
 * @param {string} text
 */
export function say(text) {
  byId("status").textContent = text;
}

let timer = 0;

/**
 * Work begins: after a moment it is shown.
 * @param {string} text
 */
export function begin(text) {
  clearTimeout(timer);
  button("stop").disabled = false;
  document.body.dataset.busy = "yes";
  byId("progress-text").textContent = text;
  timer = setTimeout(() => { byId("progress").hidden = false; }, 250);
}

/** @param {string} text */
export function progress(text) {
  byId("progress-text").textContent = text;
}

export function end() {
  clearTimeout(timer);
  button("stop").disabled = true;
  delete document.body.dataset.busy;
  byId("progress").hidden = true;
}

/**
 * A dialog with a heading.
 * @param {string} title
 * @param {...Node} content
 */
export function dialog(title, ...content) {
  const it = /** @type {HTMLDialogElement} */ (byId("dialog"));
  it.replaceChildren(make("div", { className: "dialog-head" }, make("h2", { id: "dialog-title", textContent: title }), doing("×", () => it.close(), { className: "close", "aria-label": "Close" })), ...content);
  it.showModal();
  return it;
}
