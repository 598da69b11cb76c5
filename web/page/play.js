// play.js: the page on which one plays the scheduler, in a frame that may do nothing but run its own script.
import { messageCard } from "./cards.js";
import { make } from "./dom.js";
import { scheduleWords } from "./schedules.js";
import { faultOfAnswer } from "./words.js";

/** @typedef {import("./types.js").Context} Context */

/**
 * @param {Context} context
 * @returns {Promise<Node[] | null>}
 */
export async function playView(context) {
  const { isEndless } = context.schedule;
  const answer = await context.ask(["page", ...(isEndless ? ["--ends"] : []), ...scheduleWords(context.schedule), ...context.words("page", isEndless)]);
  if (answer.status === 130 || answer.status === 124) return null;
  if (!answer.out) return [messageCard("Nothing to play", faultOfAnswer(answer))];
  const frame = make("iframe", { title: "Play the scheduler: choose who goes on", className: "play", sandbox: "allow-scripts" });
  const address = URL.createObjectURL(new Blob([answer.out], { type: "text/html" }));
  frame.onload = () => URL.revokeObjectURL(address);
  frame.src = address;
  return [frame];
}
