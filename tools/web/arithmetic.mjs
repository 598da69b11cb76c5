// arithmetic.mjs FILE.wasm: compares web/module/arithmetic.c, compiled alone, with numbers of JavaScript, of any size: at the bounds of halves and words, and at random. The last
// line is 'N passed, M failed'.
import { readFileSync } from "node:fs";

const { exports } = new WebAssembly.Instance(new WebAssembly.Module(readFileSync(process.argv[2])));
const { memory, __multi3, __ashlti3, __lshrti3, __ashrti3 } = /** @type {any} */ (exports);
const low = (/** @type {bigint} */ it) => BigInt.asIntN(64, it), high = (/** @type {bigint} */ it) => BigInt.asIntN(64, it >> 64n);
const signed = (/** @type {bigint} */ it) => BigInt.asIntN(128, it), unsigned = (/** @type {bigint} */ it) => BigInt.asUintN(128, it);

/**
 * The number that a function leaves at an address.
 * @param {(to: number) => void} act
 */
function told(act) {
  act(1024);
  const view = new DataView(memory.buffer, 1024, 16);
  return signed((view.getBigInt64(8, true) << 64n) | view.getBigUint64(0, true));
}

/** @param {(to: number, low: bigint, high: bigint, by: number) => void} act */
const shift = (act) => (/** @type {bigint} */ a, /** @type {bigint} */ by) => told((to) => act(to, low(a), high(a), Number(by)));

// The same numbers in each run.
let state = 1n;
function random() {
  let it = 0n;
  for (let word = 0; word < 4; word++) {
    state = (state * 6364136223846793005n + 1442695040888963407n) & 0xffffffffffffffffn;
    it = (it << 32n) | (state >> 32n);
  }
  return signed(it >> (state % 128n));
}

const bounds = [0n, 1n, -1n, ...[31n, 32n, 63n, 64n, 127n].flatMap((by) => [1n << by, (1n << by) - 1n, -(1n << by)])].map(signed);
const pairs = [...bounds.flatMap((a) => bounds.map((b) => [a, b])), ...Array.from({ length: 20000 }, () => [random(), random()])];
const functions = {
  "*": [(/** @type {bigint} */ a, /** @type {bigint} */ b) => told((to) => __multi3(to, low(a), high(a), low(b), high(b))), (/** @type {bigint} */ a, /** @type {bigint} */ b) => signed(a * b)],
  "<<": [shift(__ashlti3), (/** @type {bigint} */ a, /** @type {bigint} */ b) => signed(a << b)],
  ">>>": [shift(__lshrti3), (/** @type {bigint} */ a, /** @type {bigint} */ b) => signed(unsigned(a) >> b)],
  ">>": [shift(__ashrti3), (/** @type {bigint} */ a, /** @type {bigint} */ b) => a >> b],
};
let failed = 0;
for (const [name, [ours, wanted]] of Object.entries(functions)) {
  const cases = pairs.map(([a, b]) => (name === "*" ? [a, b] : [a, unsigned(b) % 128n]));
  const other = cases.find(([a, b]) => ours(a, b) !== wanted(a, b));
  if (other) failed++, console.log(`${other[0]} ${name} ${other[1]}: ${ours(other[0], other[1])}, wanted ${wanted(other[0], other[1])}`);
}
console.log(`${4 - failed} passed, ${failed} failed`);
process.exit(failed ? 1 : 0);
