// programs.js: the programs that can be opened: the examples, and what was typed. Each has a title, which is the first sentence of its comment.
import { byId, dataOf, doing, make, textElement } from "./dom.js";
import { allDrafts } from "./drafts.js";
import { namedIn } from "./options.js";

/** @typedef {{ name: string, source: string }} Example */

/** @returns {Example[]} */
export const examples = () => dataOf("examples");

export const EMPTY = 'type p = process(n: integer);\nbegin display(n) end;\n\nvar a, b: p;\nbegin init a(1), b(2) end.\n';

/**
 * The first sentence of the comment with which a source begins, as a picture's title has it: it ends at an empty line, at the end of the comment, or with a word that ends with a dot, unless the next
 * word begins with a small letter or a digit.
 * @param {string} source
 */
export function titleOf(source) {
  const comment = /^\s*"([^"]*)/.exec(source)?.[1] ?? "";
  const words = comment.split(/\n\s*\n/)[0].trim().split(/\s+/).filter(Boolean);
  const last = words.findIndex((word, place) => word.endsWith(".") && !/^[a-z0-9]/.test(words[place + 1] ?? ""));
  return (last < 0 ? words : words.slice(0, last + 1)).join(" ").replace(/\.$/, "");
}

/**
 * Fills the menu of programs.
 * @param {{ open: (key: string) => void, drop: (key: string) => void, make: () => void, current: () => string }} does
 */
export function fillPrograms({ open, drop, make: makeNew, current }) {
  const panel = byId("programs-panel");
  const find = make("input", { type: "search", placeholder: "Find a program", "aria-label": "Find a program", autocomplete: "off" });
  const item = (/** @type {string} */ key, /** @type {string} */ name, /** @type {string} */ source, /** @type {boolean} */ isDraft) => {
    const words = namedIn(source).words;
    const below = make("span", {}, textElement("span", "mono", `${name}.cp`), words && textElement("span", "mono", words));
    const opener = make("button", { type: "button", className: "item", onclick: () => open(key) }, make("b", { textContent: titleOf(source) || name }), below);
    if (key === current()) opener.setAttribute("aria-current", "true");
    return make("li", {}, opener, isDraft && doing("×", () => drop(key), { className: "close", "aria-label": `Throw away the draft of ${name}`, title: "Throw this draft away" }));
  };
  const list = (/** @type {string} */ heading, /** @type {HTMLLIElement[]} */ items) => make("section", {}, make("h2", { textContent: heading }), make("ul", {}, ...items));
  const drafts = allDrafts();
  const groups = [
    ...(drafts.length ? [list("Your drafts", drafts.map((it) => item(it.key, it.name, it.source, true)))] : []),
    list("Examples", examples().map((it) => item(`example:${it.name}`, it.name, it.source, false))),
  ];
  const none = make("p", { className: "soft", textContent: "No program has these words.", hidden: true });
  find.oninput = () => {
    const wanted = find.value.toLowerCase();
    let count = 0;
    for (const group of groups) {
      for (const it of group.querySelectorAll("li")) {
        it.hidden = !(it.textContent ?? "").toLowerCase().includes(wanted);
        if (!it.hidden) count++;
      }
      group.hidden = !group.querySelector("li:not([hidden])");
    }
    none.hidden = count > 0;
  };
  panel.replaceChildren(make("div", { className: "row find" }, find, doing("New program", makeNew)), make("div", { className: "scroll" }, ...groups, none));
  panel.onkeydown = (event) => {
    const step = { ArrowDown: 1, ArrowUp: -1 }[event.key];
    if (!step) return;
    event.preventDefault();
    const all = /** @type {HTMLElement[]} */ ([find, ...panel.querySelectorAll("li:not([hidden]) .item")]);
    const at = all.indexOf(/** @type {HTMLElement} */ (document.activeElement));
    all[Math.min(Math.max(at + step, 0), all.length - 1)]?.focus();
  };
}
