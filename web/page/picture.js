// picture.js: a schedule as a picture. What the explorer drew is read as a picture alone: nothing in it can run or load anything.
import { messageCard } from "./cards.js";
import { byId, checkbox, doing, make } from "./dom.js";
import { download } from "./files.js";
import { scheduleBar, scheduleWords } from "./schedules.js";
import { faultOfAnswer } from "./words.js";

/** @typedef {import("./types.js").Context} Context */

/** @type {{ isPlain: boolean | null, isFitted: boolean }} */
const how = { isPlain: null, isFitted: true };
// A picture with the source beside it is so wide that its letters can be read.
const WIDE_ENOUGH = 900;
// The picture's own style is for printing alone, and the policy of the page would refuse it.
const STYLE = /<style>[^<]*<\/style>/;
const FORBIDDEN = "script, style, foreignObject, a, image, use, iframe, animate, set";

/**
 * @param {Context} context
 * @returns {Promise<Node[] | null>}
 */
export async function pictureView(context) {
  const isPlain = how.isPlain ?? byId("panel").clientWidth < WIDE_ENOUGH;
  const answer = await context.look(["lanes", ...scheduleWords(context.schedule), ...(isPlain ? ["--plain"] : []), ...context.words("lanes", context.schedule.isEndless)]);
  if (answer.status === 130 || answer.status === 124) return null;
  const drawn = answer.out && !answer.fault ? drawingOf(answer.out) : null;
  const save = drawn && doing("Save as SVG", () => download(answer.out, "schedule.svg", "image/svg+xml"));
  const plain = checkbox("for slides", isPlain, (isChecked) => {
    how.isPlain = isChecked;
    context.refresh();
  });
  if (!drawn) return [scheduleBar(context, "picture", plain), messageCard("No picture", faultOfAnswer(answer))];
  const paper = make("div", { className: how.isFitted ? "paper" : "paper whole-size", tabIndex: 0, role: "region", "aria-label": "Picture of the schedule" }, drawn);
  const size = checkbox("fit", how.isFitted, (isChecked) => {
    how.isFitted = isChecked;
    paper.classList.toggle("whole-size", !isChecked);
  });
  return [scheduleBar(context, "picture", plain, size, save), paper];
}

/**
 * The picture as an element, or null where it is none.
 * @param {string} text
 */
function drawingOf(text) {
  const parsed = new DOMParser().parseFromString(text.replace(STYLE, ""), "image/svg+xml").documentElement;
  if (parsed.nodeName !== "svg") return null;
  for (const it of parsed.querySelectorAll(FORBIDDEN)) it.remove();
  for (const it of [parsed, ...parsed.querySelectorAll("*")]) for (const { name } of [...it.attributes]) if (/^on|href$/i.test(name)) it.removeAttribute(name);
  const picture = document.importNode(parsed, true);
  picture.setAttribute("role", "img");
  picture.setAttribute("aria-label", `${parsed.querySelector("title")?.textContent ?? "a schedule"}. The trace says the same in words.`);
  return picture;
}
