// What the program warns of on standard error beside its answer.

import { NOTHING, html } from "./html.mjs";

const MARK = "countygroups: warning: ";

/**
 * Returns the warnings in `errors`, which a run wrote to standard error, as HTML, or
 * nothing if there are none.
 * @param {string} errors
 */
export function warningsHtml(errors) {
  const warned = errors.split("\n").filter((line) => line.startsWith(MARK));
  if (!warned.length) return NOTHING;
  const items = warned.map((line) => {
    return html`<li><code>${line.slice(MARK.length)}</code></li>`;
  });
  return html`<div class="warned"><b>The program warns:</b><ul>${items}</ul></div>`;
}
