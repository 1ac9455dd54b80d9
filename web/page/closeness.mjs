// How close an answer is: which changes of one county's people change it, by the table that was
// made with the page, or else by how much room the groups have.

import { closeHash, hashOf, textsFor } from "./page.mjs";
import { byPeople, countyName } from "./geography.mjs";
import { groupName } from "./group_words.mjs";
import { html } from "./html.mjs";
import { rowsOf } from "./tables.mjs";
import { firstDifference, sizeWords } from "./other_group.mjs";
import { roomOf } from "./seats.mjs";
import { andList, countedInWords, numberText, numberWord } from "./words.mjs";

/** @typedef {import("./page.mjs").Page} Page */
/** @typedef {import("./answers.mjs").Answer} Answer */
/**
 * A change of the people of any one of some counties, and what the answer is then.
 * @typedef {{change: number, counties: number[], best: string, counts: string,
 *   grouping: string}} Threshold
 */

const MOST_ROWS = 6;
const MOST_NAMES = 3;

/**
 * Returns the thresholds of a table of `tools/closeness.py`, the least change first, with the
 * counties of one change in one row; and up to which change the table goes.
 * @param {Page} page
 * @param {string} table
 */
export function thresholdsOf({ geography }, table) {
  const [base, ...rows] = rowsOf(table, ",").slice(1);
  /** @type {Map<string, Threshold>} */
  const found = new Map();
  for (const [code, change, best, counts, grouping] of rows) {
    const county = geography.placeOf.get(code);
    if (county === undefined) continue;
    const key = [change, best, counts, grouping].join("|");
    const known = found.get(key)
      ?? { change: Number(change), counties: [], best, counts, grouping };
    known.counties.push(county);
    found.set(key, known);
  }
  return { within: Number(base?.[1] ?? 0), thresholds: [...found.values()] };
}

/**
 * Returns a change with its sign.
 * @param {number} change
 */
export function changeText(change) {
  return `${change > 0 ? "+" : "−"}${numberText(Math.abs(change))}`;
}

/**
 * Returns a change in words: "37 more", "84 fewer".
 * @param {number} change
 */
function changeWords(change) {
  return `${numberText(Math.abs(change))} ${change > 0 ? "more" : "fewer"}`;
}

/**
 * Returns names as a list with "or" before the last.
 * @param {string[]} names
 */
function orList(names) {
  return andList(names).replace(/ and ([^,]*)$/, " or $1");
}

/**
 * Returns the names of the counties of a threshold. If they are many, the others stand behind the
 * first ones, folded.
 * @param {string[]} names
 */
function namesHtml(names) {
  const [first, rest] = [names.slice(0, MOST_NAMES), names.slice(MOST_NAMES)];
  if (rest.length < 2) return orList(names);
  return html`
    <details><summary>${first.join(", ")} or any of ${rest.length} other counties</summary>
    ${orList(rest)}</details>`;
}

/**
 * Returns what becomes of the answer at a threshold.
 * @param {Page} page
 * @param {Answer} answer
 * @param {Threshold} threshold
 */
function becomesWords({ census }, answer, { best, counts, grouping }) {
  const other = firstDifference(answer.counts, counts.split(" ").map(Number));
  const list = best === "0" ? "No grouping is lawful"
    : Number(best) === answer.number ? `${best} other best groupings`
      : `${best} best ${best === "1" ? "grouping" : "groupings"} in place of ${answer.number}`;
  const sizes = other && best !== "0"
    ? `, with ${numberWord(other.other)} ${sizeWords(other.other, other.size)} in place of `
      + numberWord(other.one) : "";
  const year = census.enactedYear;
  const enacted = grouping === "best" ? ` The groups of ${year} stay among the best.`
    : grouping === "lawful" ? ` The groups of ${year} then meet the conditions, and aren’t best.`
      : grouping === "not lawful"
        ? ` The groups of ${year} then no longer meet the conditions.` : "";
  return `${list}${sizes}.${enacted}`;
}

/**
 * Returns the row of a threshold, with a link to the what-if of its change.
 * @param {Page} page
 * @param {Answer} answer
 * @param {Threshold} threshold
 */
function thresholdRow(page, answer, threshold) {
  const { geography } = page;
  const { change, counties } = threshold;
  const ordered = byPeople(geography, counties);
  const names = ordered.map((one) => countyName(geography, one));
  const code = geography.counties[ordered[0]].geoid;
  const sign = change > 0 ? "+" : "-";
  const path = `whatif/${answer.key}/people=${code}:${sign}${Math.abs(change)}`;
  return html`
    <tr><td class="number"><b>${changeText(change)}</b></td>
    <td>${namesHtml(names)}<div class="note">${becomesWords(page, answer, threshold)}</div></td>
    <td class="try"><a class="needs-program" href="${hashOf(page, path)}">Try it
    <span class="unseen">in ${names[0]}</span></a></td></tr>`;
}

/**
 * Returns the least change that was found to change the list, and the least one after which the
 * enacted grouping isn't best, if one is known.
 * @param {Page} page
 * @param {{within: number, thresholds: Threshold[]}} table
 */
function leadHtml({ census }, { within, thresholds }) {
  const [first] = thresholds;
  if (!first) {
    return html`
      With ${numberText(within)} people more or fewer in one county the list of best groupings stays
      as it is.`;
  }
  const lead = html`
    <b>${changeWords(first.change)} people</b> in one county change the list of best groupings.`;
  const fall = thresholds.find(({ grouping }) => grouping !== "" && grouping !== "best");
  const enacted = `the grouping enacted in ${census.enactedYear}`;
  if (!fall || !census.enactedYear) {
    return html`${lead} It is the least such change that was found.`;
  }
  const then = fall === first ? html`With them ${enacted} is no longer best.`
    : html`With <b>${changeWords(fall.change)}</b> ${enacted} is no longer best.`;
  return html`${lead} ${then} These are the least such changes that were found.`;
}

/**
 * Returns the least change of a county's own people that was found to change the list of each
 * chamber, with links to the tables; or nothing if the page has no tables.
 * @param {Page} page
 * @param {number} county
 */
export function countyCloseHtml(page, county) {
  const { name, people } = page.geography.counties[county];
  const parts = page.answers.flatMap((answer) => {
    const table = textsFor(page, answer.key).close;
    if (!table) return [];
    const { within, thresholds } = thresholdsOf(page, table);
    const least = thresholds.find((one) => one.counties.includes(county));
    const none = `none, since with ${numberText(within)} more, and with `
      + `${numberText(Math.min(within, people))} fewer, the list stays as it is`;
    return [html`
      ${answer.name} ${least ? changeWords(least.change) : none} (<a
      href="${closeHash(page, answer)}">How close is it?</a>)`];
  });
  return parts.length ? html`
    <p class="note" id="county-close"><b>How close:</b> the least change of ${name}’s own people
    that was found to change the list of best groupings: ${parts.map((one, at) => (
      at ? html`; ${one}` : one))}.</p>` : "";
}

/**
 * Returns how close an answer is.
 * @param {Page} page
 * @param {Answer} answer
 */
export function closenessHtml(page, answer) {
  const table = textsFor(page, answer.key).close;
  if (!table) return roomHtml(page, answer);
  const { within, thresholds } = thresholdsOf(page, table);
  const rows = thresholds.map((one) => thresholdRow(page, answer, one));
  const lead = leadHtml(page, { within, thresholds });
  const rest = rows.length > MOST_ROWS ? html`
    <details><summary class="note">${rows.length - MOST_ROWS} more</summary>
    <table class="close">${rows.slice(MOST_ROWS)}</table></details>` : "";
  return html`
    <h2>How close is it?</h2><p class="note">${lead} Each county was tried alone, up to
    ${numberText(within)} more or fewer, when this page was made.</p>
    <table class="close"><tbody>${rows.slice(0, MOST_ROWS)}</tbody></table>${rest}
    ${otherCensusesHtml(page, answer)}`;
}

/**
 * Returns the least change by each other census that has a table, with a link to its answer.
 * @param {Page} page
 * @param {Answer} answer
 */
function otherCensusesHtml(page, answer) {
  const { data, census } = page;
  const all = [{ year: data.year ?? 0, chambers: data.chambers }, ...(data.further ?? [])];
  const told = all.flatMap(({ year, chambers }) => {
    const table = chambers.find((one) => one.key === answer.key)?.close;
    if (year === census.year || !table) return [];
    const { within, thresholds: [first] } = thresholdsOf(page, table);
    const path = year === (data.year ?? 0) ? `#${answer.key}` : `#${year}/${answer.key}`;
    const least = first ? changeWords(first.change) : `none up to ${numberText(within)}`;
    return [html`<a href="${path}">${year}</a>: ${least}`];
  });
  const parts = told.map((one, at) => (at ? html`; ${one}` : one));
  return told.length ? html`
    <p class="note years">The least change of the list by the counts of ${parts}.</p>` : "";
}

/**
 * Returns the groups of the best groupings with the least room, for a page without a table.
 * @param {Page} page
 * @param {Answer} answer
 */
function roomHtml(page, answer) {
  const { geography } = page;
  const found = answer.groups.map((group) => {
    const { more, fewer } = roomOf(geography, answer, group);
    return { group, room: Math.min(more, fewer), isMore: more < fewer };
  });
  found.sort((one, other) => one.room - other.room);
  const rows = found.slice(0, MOST_ROWS).map(({ group, room, isMore }) => html`
    <tr><td class="number"><b>${numberText(room)}</b></td><td>${groupName(geography, group)}:
    ${isMore ? "below the most" : "above the least"} for
    ${countedInWords(group.least, "seat")}</td></tr>`);
  return html`
    <h2>How close is it?</h2><p class="note">The groups of the best groupings that are nearest to a
    limit, in people. With other counts other groups may be lawful, too.</p>
    <table class="close"><tbody>${rows}</tbody></table>`;
}
