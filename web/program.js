// program.js: runs the compiled program, anew for each command. The page's worker and node share it. It imports nothing: without the words
// `export` its text may stand in a script or in a worker.

/**
 * What the program reads and writes. Where a stream fails, the program says so itself, with status 4.
 * @typedef {object} Streams
 * @property {(most: number) => Uint8Array | null} read The next bytes of the source, at most so many; none at its end, and null where they can't be read.
 * @property {(stream: number, bytes: Uint8Array) => boolean} write Whether these bytes were written, to 1, standard output, or 2, standard error.
 * @property {boolean} [isTerminal] Whether standard error is one: then long work tells there how far it has come.
 */

/**
 * How a command ended.
 * @typedef {object} Ended
 * @property {number} status The program's own status; 134 where it was stopped by a fault of the machine, 127 where it could not begin.
 * @property {string} fault Why it could not begin or was stopped, as a sentence, or nothing.
 * @property {number} bytes The memory that it has taken.
 */

// Why the program could not begin, or could not go on.
const TOO_DEEP = "The program is nested too deep: the stack of this browser or this node does not hold it.";
const BROKEN = "The module of the explorer is broken, or is not the one that belongs to this file.";
const NO_MEMORY = "There is not enough memory to begin.";

/**
 * Runs the program on the words of a command line.
 * @param {WebAssembly.Module} module
 * @param {string[]} words
 * @param {Streams} streams
 * @returns {Ended}
 */
export function run(module, words, { read, write, isTerminal = false }) {
  const coder = new TextEncoder();
  const given = ["cpx_show", ...words].map((word) => coder.encode(word));
  /** @type {WebAssembly.Memory} */
  let memory;
  // Pointers and counts come as numbers.
  const bytesAt = (/** @type {number} */ from, /** @type {number} */ count) => new Uint8Array(memory.buffer, from, count);
  const host = {
    read(/** @type {number} */ to, /** @type {number} */ most) {
      const bytes = read(most);
      if (bytes === null) return -1;
      bytesAt(to, bytes.length).set(bytes);
      return bytes.length;
    },
    // A copy is handed on: the memory may be another one soon.
    write: (/** @type {number} */ stream, /** @type {number} */ from, /** @type {number} */ count) => (write(stream, bytesAt(from, count).slice()) ? count : -1),
    argument(/** @type {number} */ number, /** @type {number} */ to, /** @type {number} */ most) {
      if (number >= given.length) return -1;
      const word = given[number];
      bytesAt(to, Math.min(word.length, most)).set(word.subarray(0, most));
      return word.length;
    },
    now: () => performance.now(),
    terminal: (/** @type {number} */ stream) => Number(stream === 2 && isTerminal),
  };
  let start;
  try {
    ({ memory, start } = /** @type {{ memory: WebAssembly.Memory, start: () => number }} */ (/** @type {unknown} */ (new WebAssembly.Instance(module, { host }).exports)));
  } catch (it) {
    return { status: it instanceof RangeError ? 3 : 127, fault: it instanceof RangeError ? NO_MEMORY : BROKEN, bytes: 0 };
  }
  if (!start || !memory) return { status: 127, fault: BROKEN, bytes: 0 };
  let status = 134, fault = "";
  try {
    status = start();
  } catch (it) {
    fault = faultOf(it);
  }
  return { status, fault, bytes: memory.buffer.byteLength };
}

/**
 * Why the machine stopped the program. The stack lies below all else in its memory, so one that is too deep reaches out of it.
 * @param {unknown} it
 */
function faultOf(it) {
  const text = String(it);
  return it instanceof RangeError || /out of bounds|recursion/i.test(text) ? TOO_DEEP : `The explorer was stopped by a fault of the machine: ${text}.`;
}

/**
 * Runs the program on a source that is at hand, and keeps what it writes.
 * @param {WebAssembly.Module} module
 * @param {string[]} words
 * @param {string | Uint8Array} source
 * @param {(text: string) => void} [tell] Takes what is written to standard error as it comes. If there is none, long work tells nothing of how far it has come.
 * @returns {Ended & { out: Uint8Array, err: Uint8Array }}
 */
export function call(module, words, source, tell) {
  const input = typeof source === "string" ? new TextEncoder().encode(source) : source;
  const text = new TextDecoder();
  /** @type {Record<number, Uint8Array[]>} */
  const said = { 1: [], 2: [] };
  let at = 0;
  const ended = run(module, words, {
    read(most) {
      const from = at;
      at = Math.min(at + most, input.length);
      return input.subarray(from, at);
    },
    write(stream, bytes) {
      said[stream].push(bytes);
      if (tell && stream === 2) tell(text.decode(bytes, { stream: true }));
      return true;
    },
    isTerminal: Boolean(tell),
  });
  return { ...ended, out: joined(said[1]), err: joined(said[2]) };
}

/** @param {Uint8Array[]} parts */
function joined(parts) {
  const all = new Uint8Array(parts.reduce((sum, it) => sum + it.length, 0));
  let end = 0;
  for (const it of parts) {
    all.set(it, end);
    end += it.length;
  }
  return all;
}

// A function that answers a vector, as the smallest module that has one.
const VECTOR = [0, 97, 115, 109, 1, 0, 0, 0, 1, 5, 1, 96, 0, 1, 123, 3, 2, 1, 0, 10, 10, 1, 8, 0, 65, 0, 253, 15, 253, 98, 11];

/** What this browser or this node lacks to run the program, or nothing. */
export function missing() {
  if (typeof WebAssembly !== "object") return "WebAssembly";
  if (!WebAssembly.validate(new Uint8Array(VECTOR))) return "WebAssembly with vectors";
  if (typeof DecompressionStream !== "function") return "DecompressionStream";
  return "";
}

/**
 * The compiled module of a text: of the bytes of a WebAssembly module, with gzip, in base64. Fails, with an error whose message is a sentence, where they are none.
 * @param {string} text
 * @returns {Promise<WebAssembly.Module>}
 */
export async function moduleOf(text) {
  try {
    const letters = atob(text), packed = new Uint8Array(letters.length);
    for (let at = 0; at < packed.length; at++) packed[at] = letters.charCodeAt(at);
    const unpacked = new Blob([packed]).stream().pipeThrough(new DecompressionStream("gzip"));
    return await WebAssembly.compile(await new Response(unpacked).arrayBuffer());
  } catch {
    throw new Error(BROKEN);
  }
}
