// menus.js: buttons that open a panel. Escape and a click elsewhere close it; the focus goes back to the button.
import { byId } from "./dom.js";

/** @type {(() => void)[]} */
const closers = [];

/**
 * Makes the button of a menu open and close its panel.
 * @param {string} id
 * @param {() => void} [opening]
 */
export function menu(id, opening = () => {}) {
  const whole = byId(id), panel = byId(`${id}-panel`);
  const opener = /** @type {HTMLButtonElement} */ (whole.querySelector("button[aria-controls]"));
  const set = (/** @type {boolean} */ isOpen) => opener.setAttribute("aria-expanded", String(isOpen));
  const close = () => {
    if (opener.getAttribute("aria-expanded") !== "true") return;
    const isWithin = panel.contains(document.activeElement);
    set(false);
    if (isWithin) opener.focus();
  };
  closers.push(close);
  opener.addEventListener("click", () => {
    const isOpen = opener.getAttribute("aria-expanded") !== "true";
    closeMenus();
    if (isOpen) opening();
    set(isOpen);
    if (isOpen) /** @type {HTMLElement | null} */ (panel.querySelector("input, button"))?.focus();
  });
  whole.addEventListener("keydown", (event) => {
    if (event.key !== "Escape" || opener.getAttribute("aria-expanded") !== "true") return;
    event.stopPropagation();
    close();
  });
  document.addEventListener("pointerdown", (event) => { if (!whole.contains(/** @type {Node} */ (event.target))) close(); });
  whole.addEventListener("focusout", (event) => { if (event.relatedTarget && !whole.contains(/** @type {Node} */ (event.relatedTarget))) close(); });
}

export function closeMenus() {
  for (const close of closers) close();
}
