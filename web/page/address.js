// address.js: a program with its options in the part of an address behind #, compressed. A server never sees that part.
import { safe } from "./options.js";

/** @typedef {import("./types.js").Options} Options */
/** @typedef {import("./types.js").Schedule} Schedule */
/** @typedef {{ name: string, source: string, options: Options, view: string, schedule: Schedule | null }} Shared */

// A program has at most so many bytes here, so that a short address can't fill the memory.
const MOST_BYTES = 1 << 20;

/**
 * The part behind #, without it. It fails where the program is too long to be read from an address.
 * @param {Shared} shared
 */
export async function packed(shared) {
  const bytes = new TextEncoder().encode(JSON.stringify({ cpx: 1, ...shared }));
  if (bytes.length > MOST_BYTES) throw new Error("too long");
  const small = new Uint8Array(await new Response(new Blob([bytes]).stream().pipeThrough(new CompressionStream("deflate-raw"))).arrayBuffer());
  let letters = "";
  for (const byte of small) letters += String.fromCharCode(byte);
  return `p=${btoa(letters).replace(/\+/g, "-").replace(/\//g, "_").replace(/=+$/, "")}`;
}

/**
 * What an address holds: null where it has no such part. It fails where the part can't be read.
 * @param {string} hash
 * @returns {Promise<Shared | null>}
 */
export async function unpacked(hash) {
  if (hash.length <= 1) return null;
  const found = /^#p=([\w-]+)$/.exec(hash);
  if (!found) throw new Error("no program");
  const letters = atob(found[1].replace(/-/g, "+").replace(/_/g, "/"));
  const given = JSON.parse(await inflated(Uint8Array.from(letters, (it) => it.charCodeAt(0))));
  return shared(given);
}

/** @param {Uint8Array} bytes */
async function inflated(bytes) {
  const reader = new Blob([bytes]).stream().pipeThrough(new DecompressionStream("deflate-raw")).getReader();
  const decoder = new TextDecoder("utf-8", { fatal: true });
  let text = "", count = 0;
  for (;;) {
    const { done, value } = await reader.read();
    if (done) return text + decoder.decode();
    count += value.length;
    if (count > MOST_BYTES) throw new Error("too long");
    text += decoder.decode(value, { stream: true });
  }
}

/**
 * A program that comes from outside; it fails where it is none.
 * @param {any} given
 * @returns {Shared}
 */
export function shared(given) {
  if (typeof given?.source !== "string") throw new Error("no program");
  const name = typeof given.name === "string" ? given.name.replace(/[^\p{L}\p{M}\p{N}_ .-]/gu, "").slice(0, 60) : "";
  return { name: name || "program", source: given.source, options: safe(given.options), view: typeof given.view === "string" ? given.view : "", schedule: scheduleOf(given.schedule) };
}

/**
 * @param {any} given
 * @returns {Schedule | null}
 */
function scheduleOf(given) {
  const isWord = (/** @type {unknown} */ it) => Array.isArray(it) && it.length <= 10000 && it.every((number) => Number.isInteger(number) && number >= 0 && number <= 15);
  if (!isWord(given?.word)) return null;
  return { word: given.word, again: isWord(given.again) ? given.again : null, isEndless: given.isEndless === true };
}
