// worker.js: holds the compiled program, and answers one command after the other.
import { call } from "../program.js";

/** @type {WebAssembly.Module} */
let module;
const decoder = new TextDecoder();

addEventListener("message", ({ data }) => {
  if (data.module) {
    module = data.module;
    return;
  }
  const began = performance.now();
  const post = (/** @type {object} */ message) => postMessage({ id: data.id, ...message });
  try {
    const it = call(module, data.words, data.source, (progress) => post({ progress }));
    post({ status: it.status, out: decoder.decode(it.out), err: decoder.decode(it.err), fault: it.fault, milliseconds: performance.now() - began });
  } catch (it) {
    post({ status: 134, out: "", err: "", fault: `The answer does not fit into the memory of this browser: ${it}.`, milliseconds: performance.now() - began });
  }
});
