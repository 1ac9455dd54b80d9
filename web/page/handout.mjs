// One sheet for a run, to hand in: what was asked and answered, the map, the files with their sums,
// the link, and the commands that repeat it. It is printed as any page.

import { find, findAll } from "./dom.mjs";
import { fill, html } from "./html.mjs";
import { fileOf } from "./program.mjs";
import { numberText } from "./words.mjs";

/** @typedef {import("./page.mjs").Page} Page */
/**
 * What a sheet has: its title, the part of the address behind "#" or nothing, the elements of the
 * page that are shown again, the keys of carried files, further files by name and sum, and the
 * commands.
 * @typedef {{title: string, hash: string, shown: string[], keys: string[],
 *   further: {name: string, bytes: number, sum: string}[], commands: string}} Handout
 */

/**
 * Returns an element of the page as it is shown, without its controls and without names.
 * @param {string} selector
 */
function copyOf(selector) {
  const copy = /** @type {HTMLElement} */ (find(selector).cloneNode(true));
  copy.removeAttribute("role");
  copy.removeAttribute("aria-label");
  for (const one of [copy, ...copy.querySelectorAll("[id]")]) {
    if (!one.closest("defs")) one.removeAttribute("id");
  }
  copy.querySelectorAll("button, .noprint, summary").forEach((one) => one.remove());
  copy.querySelectorAll("[tabindex]").forEach((one) => one.removeAttribute("tabindex"));
  return copy;
}

/**
 * Returns the table of the files of a run.
 * @param {Handout} handout
 */
function filesHtml({ keys, further }) {
  const carried = keys.flatMap((key) => fileOf(key) ?? []);
  const rows = [...carried, ...further].map((file) => html`
    <tr><td>${file.name}</td><td class="number">${numberText(file.bytes)}</td>
    <td><code>${file.sum}</code></td></tr>`);
  return html`
    <h2>Files</h2><div class="scrolls"><table><thead><tr><th>File</th>
    <th class="number">Bytes</th><th>SHA-256</th></tr></thead><tbody>${rows}</tbody></table></div>`;
}

/**
 * Opens a sheet in the place of the views. It can be printed, or stored as a PDF by the printing of
 * the browser.
 * @param {Page} page
 * @param {Handout} handout
 */
export function openHandout(page, handout) {
  const made = new Date().toISOString().slice(0, 16).replace("T", " ");
  const { census, geography } = page;
  const link = handout.hash && html`<p>Link: <code>page.html${handout.hash}</code></p>`;
  const place = find("#handout");
  fill(place, html`
    <div class="row noprint"><button type="button" class="btn main" id="print-sheet">Print, or store
    as PDF</button><button type="button" class="btn" id="leave-sheet">Back</button></div>
    <h1>${handout.title}</h1><p class="note">${geography.name}${census.year ? `, census of ${
      census.year}` : ""}. Made by countygroups in a browser, ${made} UTC.</p>
    <div id="sheet-parts"></div>${filesHtml(handout)}<h2>Commands that repeat it</h2>
    <pre>${handout.commands}</pre>${link}`);
  for (const selector of handout.shown) find("#sheet-parts").append(copyOf(selector));
  place.hidden = false;
  document.body.classList.add("handing");
  scrollTo(0, 0);
  find("#print-sheet").addEventListener("click", () => print());
  find("#leave-sheet").addEventListener("click", leaveHandout);
  find("#print-sheet").focus();
}

/** Goes back from a sheet to the view. */
export function leaveHandout() {
  find("#handout").hidden = true;
  document.body.classList.remove("handing");
}

/**
 * Returns the button that opens a sheet.
 * @param {string} kind
 */
export function handoutButton(kind) {
  return html`
    <div class="row noprint"><button type="button" class="btn quiet" data-sheet="${kind}">Sheet to
    hand in</button></div>`;
}

/** Leaves a sheet where the address changes, since another view is shown then. */
export function followHandout() {
  addEventListener("hashchange", () => {
    if (findAll("body.handing").length) leaveHandout();
  });
}
