// drafts.js: what was typed, one draft for each program, kept by the browser until it is taken back.
import { safe } from "./options.js";

/** @typedef {import("./types.js").Options} Options */
/** @typedef {{ name: string, source: string, options: Options, at: number }} Draft */

const BEFORE = "cpx.draft.", CURRENT = "cpx.current";

/**
 * @param {string} key
 * @returns {Draft | null}
 */
export function draftOf(key) {
  try {
    const draft = JSON.parse(localStorage.getItem(BEFORE + key) ?? "null");
    return draft && typeof draft.source === "string" && typeof draft.name === "string" ? { ...draft, options: safe(draft.options) } : null;
  } catch {
    return null;
  }
}

/**
 * Whether the draft could be kept.
 * @param {string} key
 * @param {Draft} draft
 */
export function keepDraft(key, draft) {
  try {
    localStorage.setItem(BEFORE + key, JSON.stringify(draft));
    localStorage.setItem(CURRENT, key);
    return true;
  } catch {
    return false;
  }
}

/** @param {string} key */
export function dropDraft(key) {
  try {
    localStorage.removeItem(BEFORE + key);
  } catch {
    // A browser that keeps nothing has nothing to forget.
  }
}

/**
 * The program that was open last.
 * @param {string} [key]
 */
export function lastProgram(key) {
  try {
    if (key) localStorage.setItem(CURRENT, key);
    return localStorage.getItem(CURRENT) ?? "";
  } catch {
    return "";
  }
}

/**
 * All drafts, the latest first.
 * @returns {(Draft & { key: string })[]}
 */
export function allDrafts() {
  const found = [];
  try {
    for (let place = 0; place < localStorage.length; place++) {
      const name = localStorage.key(place) ?? "";
      const draft = name.startsWith(BEFORE) ? draftOf(name.slice(BEFORE.length)) : null;
      if (draft) found.push({ ...draft, key: name.slice(BEFORE.length) });
    }
  } catch {
    return [];
  }
  return found.sort((left, right) => right.at - left.at);
}
