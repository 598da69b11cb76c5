// read-words.mjs MODULE: reads the words of tests/scripts/words.json by web/words.js, with the help of a module. A line is printed for each case that is read otherwise, and 'N passed,
// M failed' last.
import { readFileSync } from "node:fs";
import { isDeepStrictEqual } from "node:util";
import { moduleIn } from "../../web/module.js";
import { call } from "../../web/program.js";
import { readWords, Refused } from "../../web/words.js";

const module = await moduleIn(process.argv[2]);
const help = (/** @type {string[]} */ words) => new TextDecoder().decode(call(module, [...words, "--help"], "").out);
/** @type {{ words: string[], read?: string[], file?: string | null, refused?: string }[]} */
const cases = JSON.parse(readFileSync(new URL("../../tests/scripts/words.json", import.meta.url), "utf8"));

/** @param {string[]} words */
function read(words) {
  try {
    return readWords(words, help);
  } catch (it) {
    if (it instanceof Refused) return it.message;
    throw it;
  }
}

let failed = 0;
for (const { words, read: wanted, file, refused } of cases) {
  const found = read(words);
  const isWanted = refused === undefined ? isDeepStrictEqual(found, { words: wanted, file }) : typeof found === "string" && found.startsWith(refused);
  if (!isWanted) failed++, console.log(`${JSON.stringify(words)}: ${JSON.stringify(found)}, wanted ${JSON.stringify(refused ?? { words: wanted, file })}`);
}
console.log(`words ${cases.length - failed} passed, ${failed} failed`);
process.exit(failed ? 1 : 0);
