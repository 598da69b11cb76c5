// module.js: finds the module of the explorer in a file, for node.
import { readFileSync } from "node:fs";
import { moduleOf } from "./program.js";

/**
 * The module of a page, or of a .wasm file, which holds it alone. Fails with an error whose message says why there is none.
 * @param {string} file
 * @returns {Promise<WebAssembly.Module>}
 */
export async function moduleIn(file) {
  const bytes = readFileSync(file);
  if (file.endsWith(".wasm")) return WebAssembly.compile(bytes);
  const found = /<script[^>]* id="program"[^>]*>([^<]*)<\/script>/.exec(bytes.toString());
  if (!found) throw new Error("it holds no module");
  return moduleOf(found[1].trim());
}
