// files.js: files that are opened, saved and dropped.
import { byId, make } from "./dom.js";

// A file has at most so many bytes: a program of the greatest size is far smaller.
const MOST_BYTES_OF_A_FILE = 1 << 20;

/**
 * @param {string} text
 * @param {string} name
 * @param {string} type
 */
export function download(text, name, type) {
  const link = make("a", { href: URL.createObjectURL(new Blob([text], { type })), download: name });
  document.body.append(link);
  link.click();
  link.remove();
  setTimeout(() => URL.revokeObjectURL(link.href), 1000);
}

/** @typedef {{ opened: (name: string, source: string) => void, refused: (sentence: string) => void }} Does */

/**
 * @param {File} file
 * @param {Does} does
 */
async function open(file, { opened, refused }) {
  if (file.size > MOST_BYTES_OF_A_FILE) {
    refused(`${file.name} is too large for a program: it has more than a million bytes.`);
    return;
  }
  try {
    opened(file.name.replace(/\.(cp|txt)$/i, "").replace(/[^\p{L}\p{M}\p{N}_ .-]/gu, "").slice(0, 60) || "program", new TextDecoder("utf-8", { fatal: true }).decode(await file.arrayBuffer()).replace(/\r\n?/g, "\n"));
  } catch {
    refused(`${file.name} can't be read as a text.`);
  }
}

/**
 * The button and the field for a file, and files that are dropped anywhere.
 * @param {Does} does
 */
export function listenForFiles(does) {
  const input = /** @type {HTMLInputElement} */ (byId("file"));
  byId("open-file").addEventListener("click", () => input.click());
  input.addEventListener("change", () => {
    const file = input.files?.[0];
    if (file) void open(file, does);
    input.value = "";
  });
  const hasFile = (/** @type {DragEvent} */ event) => event.dataTransfer?.types.includes("Files") ?? false;
  addEventListener("dragover", (event) => {
    if (!hasFile(event)) return;
    event.preventDefault();
    document.body.dataset.drop = "yes";
  }, true);
  addEventListener("dragleave", (event) => { if (!event.relatedTarget) delete document.body.dataset.drop; });
  addEventListener("drop", (event) => {
    delete document.body.dataset.drop;
    if (!hasFile(event)) return;
    event.preventDefault();
    event.stopPropagation();
    const file = event.dataTransfer?.files[0];
    if (file) void open(file, does);
  }, true);
}
