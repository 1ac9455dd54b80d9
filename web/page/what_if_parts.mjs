// What a what-if's answer is in words: the verdict, and the tables beside the base answer.

import { keyItem, patternPicture } from "./answer_parts.mjs";
import { deviationOf, setKey } from "./geography.mjs";
import { namesOf } from "./group_words.mjs";
import { verdictHtml } from "./dom.mjs";
import { NOTHING, html } from "./html.mjs";
import { tintLike } from "./tints.mjs";
import { warningsHtml } from "./warnings.mjs";
import { differingSize, groupsOfOutcome } from "./what_if.mjs";
import {
  capital, nounFor, numberText, numberWord, signedPercent,
} from "./words.mjs";

/** @typedef {import("./answers.mjs").Answer} Answer */
/** @typedef {import("./geography.mjs").Group} Group */
/** @typedef {import("./what_if.mjs").Outcome} Outcome */
/** @typedef {import("./html.mjs").Html} Html */
/**
 * @typedef {{verdict: Html, table: Html, groups: Group[], newCounties: number[],
 *   isNew: (group: Group) => boolean}} OutcomeParts
 */

/** What is said where the steps of the search ran out. */
export const STEPS_RAN_OUT = "The program took all the steps that it was allowed and found no "
  + "proof, so nothing is known of the best groupings. Allow more steps, and solve again.";

/** @type {OutcomeParts} */
const NO_PARTS = {
  verdict: NOTHING, table: NOTHING, groups: [], newCounties: [], isNew: () => false,
};

/**
 * Returns what an outcome is in words and tables, and the groups that its map shows.
 * @param {Answer} base
 * @param {Group[]} shown  the groups of the option of the base answer that is shown
 * @param {Outcome} outcome
 * @returns {OutcomeParts}
 */
export function outcomeParts(base, shown, outcome) {
  if (outcome.status === 1) {
    return { ...NO_PARTS, verdict: verdictHtml(false, "No grouping is lawful.",
      "With these changes, no way of grouping the counties meets the rule. The program proved "
      + "that, too.") };
  }
  if (outcome.status !== 0) return { ...NO_PARTS, verdict: refusalHtml(outcome) };
  const { geography } = outcome;
  const groups = groupsOfOutcome(geography, base, outcome, shown);
  tintLike(geography, base.groups, groups);
  const known = new Set(base.groups.map((group) => setKey(group.counties)));
  const isNew = (/** @type {Group} */ group) => !known.has(setKey(group.counties));
  groups.forEach((group) => {
    group.area = isNew(group) ? 0 : -1;
  });
  const fresh = groups.filter(isNew);
  const allNew = outcome.answer ? newGroups(outcome.answer, known) : fresh;
  return {
    verdict: answerVerdict(base, outcome, groups, fresh),
    table: html`<div class="three">${[
      comparison(base, outcome, groups), newGroupsTable(outcome, base, allNew)]}</div>`,
    groups, newCounties: fresh.flatMap((group) => group.counties), isNew,
  };
}

/**
 * Returns which of the best groupings a what-if's map shows, and what its patterns are.
 * @param {Outcome} outcome
 * @param {OutcomeParts} parts
 * @param {string} likened  the grouping of the base answer that it is most like
 * @param {number} taken  how many counties are taken out
 */
export function mapKeyHtml({ answer }, { groups, newCounties }, likened, taken) {
  if (!groups.length) return NOTHING;
  const isNew = newCounties.length > 0;
  const number = answer?.number ?? 0;
  const which = number === 1 ? "the one best grouping"
    : number ? `one of the ${numberText(number)} best groupings` : "one of the best groupings";
  const fresh = isNew ? "one that has a new group, and otherwise " : "the one that has ";
  const why = number > 1 ? `: ${fresh}most groups of ${likened}` : "";
  const hatch = patternPicture("hatch", "new-hatch", "new");
  const dots = patternPicture("dots", "taken-dots", "key-land");
  const items = [
    isNew ? keyItem(hatch, "A group that the base answer doesn’t have") : "",
    taken ? keyItem(dots, "A county taken out") : "",
  ];
  const key = isNew || taken ? html`<ul class="key">${items}</ul>` : "";
  return html`<p class="note">The map shows ${which}${why}.</p>${key}`;
}

/**
 * Returns the groups of all best groupings that no base answer has.
 * @param {Answer} answer
 * @param {Set<string>} known
 * @returns {Group[]}
 */
function newGroups(answer, known) {
  return answer.groups.filter((group) => !known.has(setKey(group.counties))).map((group) => (
    { ...group, seats: group.least, area: 0, choice: 0 }));
}

/**
 * Returns why there is no answer.
 * @param {Outcome} outcome
 */
function refusalHtml({ status, said }) {
  if (status === 3) return verdictHtml(false, "The search wasn’t finished.", STEPS_RAN_OUT);
  const words = said.split("\n").slice(0, 2).join(" ").replace(/countygroups: /g, "");
  return verdictHtml(false, "The program refused this.", html`<code>${words}</code>`);
}

/**
 * Returns the verdict on an answer: what is new, in a sentence.
 * @param {Answer} base
 * @param {Outcome} outcome
 * @param {Group[]} groups
 * @param {Group[]} fresh
 */
function answerVerdict(base, { answer, report, said }, groups, fresh) {
  const mine = new Set((answer?.groups ?? []).map((group) => setKey(group.counties)));
  const isGone = base.groups.some((group) => !mine.has(setKey(group.counties)));
  const isMore = (answer?.groups.length ?? 0) > base.groups.length;
  const isSame = answer?.number === base.number && !fresh.length && !isGone && !isMore;
  const size = differingSize(base.counts, report.counts);
  const left = answer ? capital(numberWord(answer.number)) : "Some";
  const verb = answer?.number === 1 ? "is" : "are";
  const ofBase = `${left} of the ${base.number} best groupings ${verb} left.`;
  const wider = `${left} best groupings instead of ${numberWord(base.number)}.`;
  const head = isSame ? "Nothing changes."
    : fresh.length ? `${capital(numberWord(fresh.length))} of the ${groups.length} groups `
      + `${fresh.length === 1 ? "is" : "are"} new.`
      : answer && answer.number > base.number ? wider : ofBase;
  const instead = answer?.number === base.number ? "" : ` instead of ${numberText(base.number)}`;
  const listed = answer ? `${numberText(answer.number)} best ${nounFor(answer.number, "grouping")}`
    + `${instead}; ${answer.shared.length} groups are in all of them.` : "";
  const why = size ? ` Groups of ${numberWord(size)} ${nounFor(size, "county", "counties")}: `
    + `${report.counts[size - 1] ?? 0} instead of ${base.counts[size - 1] ?? 0}.` : "";
  const outlined = fresh.length ? " New groups are outlined on the map." : "";
  const verdict = verdictHtml(isSame || !fresh.length, head, `${listed}${why}${outlined}`);
  return html`${verdict}${warningsHtml(said)}`;
}

/**
 * Returns the numbers of an answer beside those of the base answer.
 * @param {Answer} base
 * @param {Outcome} outcome
 * @param {Group[]} groups
 */
function comparison(base, { answer, report }, groups) {
  const row = (/** @type {string} */ words, /** @type {string | number} */ one,
    /** @type {string | number} */ other) => (
    html`<tr><td>${words}</td><td>${one}</td><td>${other}</td></tr>`);
  const baseGroups = base.counts.reduce((sum, count) => sum + count, 0);
  const length = Math.max(base.counts.length, report.counts.length);
  const sizes = Array.from({ length }, (_, at) => [base.counts[at] ?? 0, report.counts[at] ?? 0]);
  const counts = sizes.map(([one, other], at) => (one || other
    ? row(`Groups of ${numberWord(at + 1)} ${nounFor(at + 1, "county", "counties")}`, one, other)
    : ""));
  const rows = [
    row("Best groupings", numberText(base.number), answer ? numberText(answer.number) : "?"),
    row("Groups in all of them", base.shared.length, answer ? answer.shared.length : "?"),
    row("Groups", baseGroups, groups.length),
    row("Seats left to group", base.seatsLeft, report.seatsLeft),
  ];
  return html`
    <div><h2>Against the base answer</h2><table class="compare"><thead><tr>
    <td></td><th>Base</th><th>What if</th></tr></thead><tbody>
    ${[...rows, ...counts]}</tbody></table></div>`;
}

/**
 * Returns the table of new groups.
 * @param {Outcome} outcome
 * @param {Answer} base
 * @param {Group[]} fresh
 */
function newGroupsTable({ geography }, base, fresh) {
  if (!fresh.length) {
    return html`
      <div><h2>New groups</h2><p class="note">None. Every group is one of the base answer’s.</p>
      </div>`;
  }
  const rows = fresh.map((group) => (
    html`
      <tr><td class="number"><b>${group.seats}</b></td><td>
      ${namesOf(geography, group.counties).join(", ")}</td><td class="number">
      ${signedPercent(deviationOf(geography, group, base.seats))}</td></tr>`));
  return html`
    <div><h2>New groups</h2><p class="note">Those of all best groupings.</p><table><thead><tr><th
    class="number">Seats</th><th>Counties</th><th class="number">Per seat</th></tr></thead>
    <tbody>${rows}</tbody></table></div>`;
}
