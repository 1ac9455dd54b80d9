// Which borders decide: those without which the best groupings are others, by the table that was
// made with the page.

import { waterPairs } from "./disputed.mjs";
import { countyName, pairOf } from "./geography.mjs";
import { html } from "./html.mjs";
import { firstDifference, sizeWords } from "./other_group.mjs";
import { hashOf, textsFor } from "./page.mjs";
import { rowsOf } from "./tables.mjs";
import { pairCodes } from "./what_if.mjs";
import { nounFor, numberText } from "./words.mjs";

/** @typedef {import("./page.mjs").Page} Page */
/** @typedef {import("./answers.mjs").Answer} Answer */
/** @typedef {import("./geography.mjs").Geography} Geography */
/** @typedef {import("./html.mjs").Html} Html */
/**
 * What becomes of the best groupings without a border: none is lawful, they have other counts, or
 * some are left, without the enacted groups ("without") or with them.
 * @typedef {"none" | "counts" | "without" | "with"} Kind
 */
/**
 * A border that decides: its counties, what becomes of the best groupings without it, their number
 * and their counts then, and whether the enacted groups are best, lawful, or not lawful.
 * @typedef {{pair: [number, number], kind: Kind, best: string, counts: string,
 *   grouping: string}} Deciding
 */

/** @type {Kind[]} */
const KINDS = ["none", "counts", "without", "with"];

/**
 * Returns the borders of a table of `tools/deciding_borders.py`, and how many borders were tried.
 * @param {Geography} geography
 * @param {string} table
 */
export function decidingOf({ placeOf }, table) {
  const [base, ...rows] = rowsOf(table, ",").slice(1);
  const borders = rows.flatMap(([code, neighbor, best, counts, , grouping]) => {
    const [one, other] = [placeOf.get(code), placeOf.get(neighbor)];
    if (one === undefined || other === undefined) return [];
    /** @type {Kind} */
    const kind = best === "0" ? "none" : counts !== base[3] ? "counts"
      : grouping === "best" || !grouping ? "with" : "without";
    return [/** @type {Deciding} */ ({ pair: pairOf(one, other), kind, best, counts, grouping })];
  });
  return { tried: Number(base?.[1] ?? 0), borders };
}

/**
 * Returns what `count` borders do to the best groupings if one of them is left out.
 * @param {Page} page
 * @param {Answer} answer
 * @param {Kind} kind
 * @param {number} count
 */
function kindWords({ census }, answer, kind, count) {
  const groups = `the groups of ${census.enactedYear}`;
  const verb = nounFor(count, "leaves", "leave");
  if (kind === "none") return `${verb} no lawful grouping`;
  if (kind === "counts") return `${nounFor(count, "changes", "change")} the counts of groups`;
  const left = `${verb} some of the ${numberText(answer.number)} best groupings`;
  if (kind === "without") return `${left}, without ${groups}`;
  return census.enactedYear ? `${left}, with ${groups}` : left;
}

/**
 * Returns what the answer is without a border, in a few words.
 * @param {Answer} answer
 * @param {Deciding} border
 */
function withoutWords(answer, { kind, best, counts }) {
  if (kind === "none") return "";
  const differing = firstDifference(answer.counts, counts.split(" ").map(Number));
  if (!differing) return `${best} best in place of ${numberText(answer.number)}`;
  const { size, one, other } = differing;
  return `${numberText(other)} ${sizeWords(other, size)} in place of ${numberText(one)}`;
}

/**
 * Returns the borders of one kind. The link of each leaves it out alone, and solves.
 * @param {Page} page
 * @param {Answer} answer
 * @param {Deciding[]} borders
 * @param {Kind} kind
 */
function kindHtml(page, answer, borders, kind) {
  const { geography } = page;
  const own = borders.filter((one) => one.kind === kind);
  const overWater = waterPairs(geography);
  const rows = own.map((border) => {
    const codes = pairCodes(geography, border.pair);
    const [one, other] = border.pair.map((place) => countyName(geography, place));
    const path = `whatif/${answer.key}/cut=${codes.replace(" ", "-")}`;
    const water = overWater.has(border.pair.join(" ")) ? ", over water" : "";
    return html`
      <li><a class="needs-program" data-cut="${codes}"
      href="${hashOf(page, path)}"><span class="unseen">Leave out </span>${one}–${other}</a>
      <span class="note">${withoutWords(answer, border)}${water}</span></li>`;
  });
  return own.length ? html`
    <details class="cuts"><summary><b>${numberText(own.length)}</b> ${
      kindWords(page, answer, kind, own.length)}</summary><ul>${rows}</ul></details>` : "";
}

/**
 * Returns how many borders decide a chamber's answer, and which, or null if the page has no table
 * of them.
 * @param {Page} page
 * @param {Answer} answer
 * @returns {Html | null}
 */
export function decidingHtml(page, answer) {
  const table = textsFor(page, answer.key).deciding;
  if (!table) return null;
  const { tried, borders } = decidingOf(page.geography, table);
  const all = borders.length;
  const unlawful = borders.filter((one) => one.grouping === "not lawful").length;
  const enacted = unlawful ? html` Without any one of ${numberText(unlawful)} the groups of
    ${page.census.enactedYear} aren’t lawful.` : "";
  return html`
    <p class="note">Each of the ${numberText(tried)} borders was left out alone when this page was
    made. <b>${numberText(all)}</b> of them ${nounFor(all, "changes", "change")} the list of best
    groupings.${enacted} Choose one to leave it out alone and solve again.</p>
    ${KINDS.map((kind) => kindHtml(page, answer, borders, kind))}`;
}
