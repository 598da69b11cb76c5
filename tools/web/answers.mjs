// answers.mjs MODULE CASES [SHOW]: answers stored cases with the module of a page or a .wasm file, compiled once, in as many threads as there are processors, and compares the status
// and each byte. CASES is a file of JSON: of each case its name, words, source, wanted output (paths) and status. Where the status is not 0, standard error is compared with that of
// the built program SHOW. A line is printed for each case that differs, and 'N passed, M failed' last.
import { spawnSync } from "node:child_process";
import { readFileSync } from "node:fs";
import { availableParallelism } from "node:os";
import { fileURLToPath } from "node:url";
import { isMainThread, parentPort, Worker, workerData } from "node:worker_threads";
import { moduleIn } from "../../web/module.js";
import { call } from "../../web/program.js";

/** @typedef {{ name: string, words: string[], source: string, wanted: string, status: number }} Case */

/**
 * What is wrong with the answer to a case, or nothing.
 * @param {WebAssembly.Module} module
 * @param {Case} asked
 * @param {string} [show]
 */
function difference(module, asked, show) {
  const source = readFileSync(asked.source);
  const { status, out, err, fault } = call(module, asked.words, source);
  if (status !== asked.status) return `status ${status}, wanted ${asked.status} ${fault}`;
  if (show && status) {
    const { stderr } = spawnSync(show, asked.words, { input: source });
    if (!stderr.equals(err)) return `standard error ${Buffer.from(err)}, wanted ${stderr}`;
  }
  const wanted = readFileSync(asked.wanted);
  if (wanted.equals(out)) return "";
  const [lines, others] = [Buffer.from(out), wanted].map((bytes) => bytes.toString().split("\n"));
  const at = lines.findIndex((/** @type {string} */ line, /** @type {number} */ number) => line !== others[number]);
  return at < 0 ? `${lines.length} lines, wanted ${others.length}` : `line ${at + 1} is ${lines[at].slice(0, 100)}, wanted ${others[at]?.slice(0, 100)}`;
}

async function main() {
  const [file, list, show] = process.argv.slice(2);
  const module = await moduleIn(file);
  /** @type {Case[]} */
  const cases = JSON.parse(readFileSync(list, "utf8"));
  const next = new Int32Array(new SharedArrayBuffer(4));
  const faults = new Map();
  await Promise.all(Array.from({ length: availableParallelism() }, () => new Promise((done, fail) => {
    const thread = new Worker(fileURLToPath(import.meta.url), { workerData: { module, cases, next, show } });
    thread.on("message", (/** @type {{ at: number, fault: string }} */ { at, fault }) => faults.set(at, fault));
    thread.on("error", fail);
    thread.on("exit", done);
  })));
  let failed = 0;
  for (const [at, { name }] of cases.entries()) {
    const fault = faults.get(at) ?? "no answer";
    if (fault) failed++, console.log(`${name}: ${fault}`);
  }
  console.log(`${cases.length - failed} passed, ${failed} failed`);
  process.exit(failed || !cases.length ? 1 : 0);
}

if (isMainThread) {
  await main();
} else {
  const { module, cases, next, show } = workerData;
  for (let at = Atomics.add(next, 0, 1); at < cases.length; at = Atomics.add(next, 0, 1)) parentPort?.postMessage({ at, fault: difference(module, cases[at], show) });
}
