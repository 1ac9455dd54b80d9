/** The worker's side of a process: runs what the page asks for, and tells what comes of it. */

import { BrowserFiles } from "./browser_files.mjs";
import { runProcess } from "./process.mjs";

/**
 * @typedef {import("./messages.mjs").Message} Message
 * @typedef {import("./messages.mjs").Request} Request
 */

/**
 * Tells the page `message`.
 *
 * @param {Message} message
 */
function tell(message) {
  /** @type {{ postMessage: (message: Message) => void }} */ (self).postMessage(message);
}

/**
 * Runs a process to its end, and tells what it left, or why it has no end.
 *
 * @param {Request} request
 */
function run({ module, words, files, input }) {
  try {
    const store = new BrowserFiles(files, input, (line) => tell({ kind: "progress", line }));
    const status = runProcess({ module, words, store });
    const [output, errors] = [store.output.bytes(), store.errors.text()];
    tell({ kind: "ended", ended: { status, output, errors, stored: store.stored() } });
  } catch (error) {
    tell({ kind: "failed", why: String(error) });
  }
}

self.addEventListener("message", (event) => run(event.data));
