// times.mjs MODULE SHOW: the processor time of some searches, with the module under node and with the built program SHOW; of each the best of three, and how many times as long the
// module takes, with the mean of these. Also the module's size, and how long the engine takes to compile it.
import { spawnSync } from "node:child_process";
import { readFileSync } from "node:fs";
import { gzipSync } from "node:zlib";
import { moduleIn } from "../../web/module.js";
import { call } from "../../web/program.js";

const JOBS = [
  ["philosophers-five-ordered", "outcomes"], ["philosophers-five", "outcomes"], ["philosophers-five", "ends", "--waits"],
  ["producers-consumers-three", "outcomes"], ["producers-consumers-three", "ends", "--waits"], ["philosophers-five-butler", "ends", "--waits"],
];
const [file, show] = process.argv.slice(2);

/**
 * Milliseconds of a child.
 * @param {string[]} words
 * @param {string} source
 */
function inChild(words, source) {
  const { stderr } = spawnSync("/bin/bash", ["-c", 'TIMEFORMAT="%U %S"; time "$0" "$@" > /dev/null', show, ...words], { input: source });
  return stderr.toString().trim().split("\n").slice(-1)[0].split(" ").reduce((/** @type {number} */ sum, /** @type {string} */ it) => sum + 1000 * Number(it), 0);
}

/**
 * Milliseconds of this process.
 * @param {WebAssembly.Module} module
 * @param {string[]} words
 * @param {string} source
 */
function inModule(module, words, source) {
  const before = process.cpuUsage();
  call(module, words, source);
  const { user, system } = process.cpuUsage(before);
  return (user + system) / 1000;
}

const began = process.cpuUsage();
const module = await moduleIn(file);
const { user, system } = process.cpuUsage(began);
const bytes = file.endsWith(".wasm") ? readFileSync(file) : null;
console.log(`${bytes ? `${bytes.length} bytes, ${gzipSync(bytes, { level: 9 }).length} with gzip; ` : ""}compiled in ${((user + system) / 1000).toFixed(0)} ms`);
const ratios = [];
for (const [name, ...words] of JOBS) {
  const source = readFileSync(new URL(`../../examples/${name}.cp`, import.meta.url), "utf8");
  const [native, ours] = [() => inChild(words, source), () => inModule(module, words, source)].map((time) => Math.min(time(), time(), time()));
  ratios.push(ours / native);
  console.log(`${name} ${words.join(" ")}: ${native.toFixed(0)} and ${ours.toFixed(0)} ms, ${(ours / native).toFixed(2)} times`);
}
console.log(`the mean is ${(ratios.reduce((sum, it) => sum + it, 0) / ratios.length).toFixed(2)} times`);
