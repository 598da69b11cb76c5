// tabs.js: the views, as tabs. On a narrow screen the program is a view of its own.
import { byId, make } from "./dom.js";

/** @typedef {import("./types.js").ViewName} ViewName */

/** @type {[ViewName, string][]} */
export const VIEWS = [["source", "Program"], ["outcomes", "Outcomes"], ["picture", "Picture"], ["trace", "Trace"], ["play", "Play"], ["expect", "Expect"], ["ends", "Any length"]];

/**
 * @param {string} name
 * @returns {name is ViewName}
 */
export const isView = (name) => VIEWS.some(([it]) => it === name);

/** @param {(view: ViewName) => void} open */
export function makeTabs(open) {
  const tabs = byId("tabs");
  for (const [view, name] of VIEWS) {
    const controls = view === "source" ? "source" : "panel";
    tabs.append(make("button", { type: "button", role: "tab", id: `tab-${view}`, textContent: name, tabIndex: -1, "aria-controls": controls, "aria-selected": "false", onclick: () => open(view) }));
  }
  tabs.addEventListener("keydown", (event) => {
    const all = /** @type {HTMLElement[]} */ ([...tabs.children]).filter((it) => it.offsetParent);
    const at = all.indexOf(/** @type {HTMLElement} */ (document.activeElement));
    const to = { ArrowRight: at + 1, ArrowLeft: at - 1, Home: 0, End: all.length - 1 }[event.key];
    if (to === undefined || at < 0) return;
    event.preventDefault();
    const next = all[(to + all.length) % all.length];
    next.focus();
    next.click();
  });
}

/** @param {ViewName} view */
export function selectTab(view) {
  document.body.dataset.view = view;
  for (const tab of /** @type {Iterable<HTMLElement>} */ (byId("tabs").children)) {
    const isSelected = tab.id === `tab-${view}`;
    tab.setAttribute("aria-selected", String(isSelected));
    tab.tabIndex = isSelected ? 0 : -1;
  }
  byId("panel").setAttribute("aria-labelledby", `tab-${view}`);
}
