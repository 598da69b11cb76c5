#!/usr/bin/env node
// cpx.mjs [--module FILE] PART [OPTION..] [FILE]: ./show on each system that has node, by the module of cpx.html, or of another page or a .wasm file. It answers what the
// built program answers, with its statuses; 127 where there is no module that can run here, 134 where a fault of the machine stopped it.
import { accessSync, constants, openSync, readSync, statSync, writeSync } from "node:fs";
import { fileURLToPath } from "node:url";
import { isMainThread, parentPort, Worker, workerData } from "node:worker_threads";
import { moduleIn } from "./module.js";
import { call, missing, run } from "./program.js";
import { readWords, Refused } from "./words.js";

const COMMAND = process.env.CPX_COMMAND ?? "cpx.mjs";
const PAGE = fileURLToPath(new URL("../cpx.html", import.meta.url));

/**
 * Says why there is no answer, and ends.
 * @param {string} why
 * @param {number} status
 * @returns {never}
 */
function refuse(why, status) {
  process.stderr.write(`${COMMAND}: ${why}\n`);
  process.exit(status);
}

/**
 * Opens the file with the source, or standard input.
 * @param {string | null} file
 * @param {string[]} words
 */
function open(file, words) {
  if (file === null) {
    const isAsked = words.includes("--help") || words.includes("-h") || words.join() === "--version";
    if (process.stdin.isTTY && !isAsked) process.stderr.write(`${COMMAND}: reads the program from the keyboard, up to Control-D (or name a file: ${COMMAND} .. program.cp)\n`);
    return 0;
  }
  try {
    const found = statSync(file, { throwIfNoEntry: false });
    if (!found) refuse(`there is no file ${file}`, 2);
    if (found.isDirectory()) refuse(`${file} is a folder`, 2);
    accessSync(file, constants.R_OK);
    return openSync(file, "r");
  } catch {
    return refuse(`${file} can't be read`, 2);
  }
}

/** Waits where a stream is not ready: node has made it so that it does not wait itself. */
const pause = () => Atomics.wait(new Int32Array(new SharedArrayBuffer(4)), 0, 0, 5);

/**
 * Does something with a stream, as soon as the stream is ready; what else is thrown is a failure.
 * @template T
 * @param {() => T} act
 * @returns {T | null}
 */
function whenReady(act) {
  for (;;) {
    try {
      return act();
    } catch (it) {
      if (/** @type {{ code?: string }} */ (it).code !== "EAGAIN") return null;
      pause();
    }
  }
}

/**
 * The streams of a process.
 * @param {number} source the open file with the source
 * @param {boolean} isTerminal
 * @returns {import("./program.js").Streams}
 */
function streams(source, isTerminal) {
  return {
    isTerminal,
    read(most) {
      const bytes = new Uint8Array(Math.min(most, 1 << 16));
      const count = whenReady(() => {
        try {
          return readSync(source, bytes);
        } catch (it) {
          // On Windows the end of a pipe is told so.
          if (/** @type {{ code?: string }} */ (it).code === "EOF") return 0;
          throw it;
        }
      });
      return count === null ? null : bytes.subarray(0, count);
    },
    write(stream, bytes) {
      for (let at = 0; at < bytes.length; ) {
        const count = whenReady(() => writeSync(stream, bytes, at));
        if (count === null) return false;
        at += count;
      }
      return true;
    },
  };
}

/**
 * What the program answers to these words and --help.
 * @param {WebAssembly.Module} module
 * @param {string[]} words
 */
function helpOf(module, words) {
  const { status, fault, out, err } = call(module, [...words, "--help"], "");
  if (fault) refuse(fault, status);
  if (status) {
    process.stderr.write(err);
    process.exit(status);
  }
  return new TextDecoder().decode(out);
}

/** Reads the words, and has a thread of its own run the program, so that Control-C is heard. */
async function main() {
  const given = process.argv.slice(2), lacking = missing();
  if (lacking) refuse(`this node (${process.version}) lacks ${lacking}: node 18 or a later one has it`, 127);
  const file = given[0] === "--module" ? given.splice(0, 2)[1] : PAGE;
  if (!file) refuse("--module needs a file: a page, or a module that ends in .wasm", 2);
  const module = await moduleIn(file).catch((it) => refuse(`there is no module to run in ${file}: ${it.message}`, 127));
  let asked;
  try {
    asked = readWords(given, (words) => helpOf(module, words));
  } catch (it) {
    if (it instanceof Refused) refuse(it.message.replace("COMMAND", COMMAND), 2);
    throw it;
  }
  const isTerminal = Boolean(process.stderr.isTTY);
  const thread = new Worker(fileURLToPath(import.meta.url), { workerData: { module, words: asked.words, source: open(asked.file, asked.words), isTerminal } });
  thread.on("message", (/** @type {import("./program.js").Ended} */ { status, fault }) => (fault ? refuse(fault, status) : process.exit(status)));
  thread.on("error", (/** @type {Error} */ it) => refuse(`stopped: ${it.message}`, 134));
  process.once("SIGINT", () => {
    process.stderr.write(`${isTerminal ? "\r\x1b[K" : ""}${COMMAND}: stopped\n`);
    process.kill(process.pid, "SIGINT");
  });
}

if (isMainThread) {
  await main();
} else {
  const { module, words, source, isTerminal } = workerData;
  parentPort?.postMessage(run(module, words, streams(source, isTerminal)));
}
