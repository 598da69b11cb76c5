// dom.js: elements. Text is set as text alone, so nothing that stands in a program becomes markup.

/**
 * @template {keyof HTMLElementTagNameMap} Tag
 * @param {Tag} tag
 * @param {Record<string, unknown>} [properties] Names with a hyphen, and `role`, are attributes.
 * @param {...(Node | string | null | undefined | false)} children
 * @returns {HTMLElementTagNameMap[Tag]}
 */
export function make(tag, properties = {}, ...children) {
  const element = document.createElement(tag);
  for (const [name, value] of Object.entries(properties)) {
    if (value === undefined || value === null) continue;
    if (name.includes("-") || name === "role") element.setAttribute(name, String(value));
    else Reflect.set(element, name, value);
  }
  element.append(...children.filter((it) => it !== null && it !== undefined && it !== false).map((it) => /** @type {Node | string} */ (it)));
  return element;
}

/**
 * An element of a class, with a text.
 * @template {keyof HTMLElementTagNameMap} Tag
 * @param {Tag} tag
 * @param {string} className
 * @param {string} text
 */
export function textElement(tag, className, text) {
  return make(tag, { className, textContent: text });
}

/**
 * A box to be checked, with its label.
 * @param {string} text
 * @param {boolean} checked
 * @param {(isChecked: boolean) => void} changed
 */
export function checkbox(text, checked, changed) {
  const box = make("input", { type: "checkbox", checked, onchange: () => changed(box.checked) });
  return make("label", { className: "check" }, box, text);
}

/** @param {string} id */
export function byId(id) {
  return /** @type {HTMLElement} */ (document.getElementById(id));
}

/** @param {string} id */
export const button = (id) => /** @type {HTMLButtonElement} */ (byId(id));
/** @param {string} id */
export const field = (id) => /** @type {HTMLInputElement | HTMLSelectElement} */ (byId(id));

/**
 * A button that does something.
 * @param {string} text
 * @param {() => void} does
 * @param {Record<string, unknown>} [properties]
 */
export function doing(text, does, properties = {}) {
  return make("button", { type: "button", textContent: text, onclick: does, ...properties });
}

/**
 * A text in which words between backquotes are shown as code.
 * @param {string} text
 */
export function withCode(text) {
  return text.split("`").map((part, place) => (place % 2 ? make("code", { textContent: part }) : part));
}

/**
 * What stands in a part of the page as JSON.
 * @param {string} id
 */
export function dataOf(id) {
  return JSON.parse(byId(id).textContent ?? "null");
}

export const isNarrow = () => matchMedia("(max-width: 820px)").matches;
