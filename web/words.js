// words.js: how the words of a command are read, as tools/run-program reads them for ./show. tests/scripts/words.json has cases, with which both are tried.

/** What is wrong with the words of a command, as a sentence. */
export class Refused extends Error {}

/**
 * What a command asks for: the words that the program takes, and the file with the source, null where that is standard input.
 * @typedef {{ words: string[], file: string | null }} Asked
 */

/**
 * Reads the words. A word that is no option, and no value of an option, is the file with the source; behind -- each word is, and among the words of an
 * expectation one that ends in .cp. Fails with Refused.
 * @param {string[]} given
 * @param {(words: string[]) => string} help What the program answers to these words and --help: it says which parts there are, and which options take a value.
 * @returns {Asked}
 */
export function readWords(given, help) {
  let [first = "", ...rest] = given, part = "";
  if (first === "help") {
    if (rest.length) part = partOf(rest[0], help);
    rest = ["--help"];
  } else if (/^-./.test(first)) {
    rest = given;
  } else {
    part = partOf(first, help);
  }
  const words = part ? [part] : [], files = [];
  let option = "", areFiles = false;
  for (const word of rest) {
    const before = option;
    option = "";
    if (areFiles) {
      files.push(word);
    } else if (word === "--") {
      areFiles = true;
    } else if (/^-./.test(word)) {
      words.push(word);
      if (!/^--.*=/.test(word)) option = word;
    } else if ((before && takesValue(before, help(words.slice(0, Number(Boolean(part)))))) || (part === "mark" && !word.endsWith(".cp"))) {
      words.push(word);
    } else {
      files.push(word);
    }
  }
  if (files.length > 1) throw new Refused(`one program at a time: ${files[0]}, and ${files[1]}`);
  return { words, file: files.length && files[0] !== "-" ? files[0] : null };
}

/**
 * The part that a word names. Fails with the parts that there are, and the one that begins as the word does.
 * @param {string} word
 * @param {(words: string[]) => string} help
 */
function partOf(word, help) {
  const listed = help([]).split("Commands:\n")[1].split("\n\n")[0];
  const parts = listed.split("\n").map((line) => line.trim().split(/\s/)[0]);
  if (parts.includes(word)) return word;
  const meant = parts.filter((part) => word.startsWith(part.slice(0, 2))).pop();
  const told = word && `there is no part ${word}${meant ? `: ${meant} is meant` : ""}; `;
  throw new Refused(`${told}the parts are ${parts.join(", ")} (COMMAND --help says what each does)`);
}

/**
 * Whether an option takes the next word as its value, as the help of the part says. An option that is not there is for the program to refuse.
 * @param {string} option
 * @param {string} help
 */
function takesValue(option, help) {
  return help.includes(` ${option} <`) || !help.includes(` ${option} `);
}
