// language.js: the colours of a program. The words are those of docs/LANGUAGE.md; tools/check-editors has the same lists for other editors.

const RESERVED = new Set("array begin case class const cycle div do downto else end entry for function if in init mod monitor not of or and procedure process record repeat set then to type until var while".split(" "));
const LEFT_OUT = new Set("with univ program".split(" "));
const PREDECLARED = new Set("integer boolean char queue true false succ pred chr ord abs empty delay continue display".split(" "));
const ANNOTATION = /^\s*\(\*\s*(assert|invariant|expect)(?![A-Za-z0-9_])/;

/** @typedef {{ string: string, pos: number, eat: (text: string) => string | undefined, next: () => string, skipTo: (text: string) => boolean, skipToEnd: () => void, match: (pattern: RegExp) => RegExpMatchArray | null }} Stream */

/** The mode of the editor library for Concurrent Pascal. */
export const concurrentPascal = () => ({
  startState: () => ({ /** @type {string | null} */ within: null }),
  /**
   * @param {Stream} stream
   * @param {{ within: string | null }} state
   */
  token(stream, state) {
    if (!state.within && stream.eat('"')) state.within = ANNOTATION.test(stream.string.slice(stream.pos)) ? "meta" : "comment";
    if (state.within) {
      const kind = state.within;
      if (stream.skipTo('"')) {
        stream.next();
        state.within = null;
      } else {
        stream.skipToEnd();
      }
      return kind;
    }
    if (stream.match(/^'(\(:\d+:\)|[^'])'/)) return "string";
    if (stream.match(/^\d+/)) return "number";
    const word = stream.match(/^[A-Za-z]\w*/);
    if (!word) {
      stream.next();
      return null;
    }
    const name = word[0].toLowerCase();
    return RESERVED.has(name) ? "keyword" : PREDECLARED.has(name) ? "builtin" : LEFT_OUT.has(name) ? "error" : null;
  },
});
