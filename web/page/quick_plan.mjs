// A plan by its block codes alone, against all options at once: the county stands in the code of a
// block, so no Census file is needed to tell which districts cross groups.

import { groupsOf } from "./answers.mjs";
import { verdictHtml } from "./dom.mjs";
import { html } from "./html.mjs";
import { hashOf } from "./page.mjs";
import { andList, capital, counted, countedInWords, nounFor, numberWord } from "./words.mjs";

/** @typedef {import("./page.mjs").Page} Page */
/** @typedef {import("./answers.mjs").Answer} Answer */
/** @typedef {import("./block_plan.mjs").Plan} Plan */
/** @typedef {{option: number, crossing: string[]}} Compared */

const MOST_NAMED = 8;

/**
 * Returns the counties in which each district of a plan has blocks, by its label. Blocks of no
 * district are left out.
 * @param {Page} page
 * @param {Plan} plan
 */
export function countiesOfDistricts({ geography }, plan) {
  /** @type {Map<string, Set<number>>} */
  const districts = new Map();
  for (const line of plan.lines.split("\n")) {
    const bar = line.indexOf("|");
    const label = line.slice(bar + 1);
    const county = geography.placeOf.get(line.slice(0, 5));
    if (county === undefined || !label || label === "ZZZ") continue;
    const counties = districts.get(label) ?? new Set();
    districts.set(label, counties.add(county));
  }
  return districts;
}

/**
 * Returns for each option which districts cross its groups, the fewest first.
 * @param {Answer} answer
 * @param {Map<string, Set<number>>} districts
 * @returns {Compared[]}
 */
export function comparedOptions(answer, districts) {
  const compared = (answer.options ?? [answer.first]).map((choices, at) => {
    const groupOf = new Map(groupsOf(answer, choices).flatMap((group, number) => (
      group.counties.map((county) => [county, number]))));
    const crossing = [...districts].filter(([, counties]) => (
      new Set([...counties].map((county) => groupOf.get(county))).size > 1))
      .map(([label]) => label);
    return { option: at + 1, crossing };
  });
  return compared.sort((one, other) => (
    one.crossing.length - other.crossing.length || one.option - other.option));
}

/**
 * Returns labels in a phrase, in the order of their numbers, at most eight of them.
 * @param {string[]} labels
 */
function labelWords(labels) {
  const natural = new Intl.Collator("en-US", { numeric: true });
  const ordered = [...labels].sort(natural.compare);
  const more = ordered.length - MOST_NAMED;
  if (more <= 0) return andList(ordered);
  return `${ordered.slice(0, MOST_NAMED).join(", ")} and ${more} more`;
}

/**
 * Returns how a plan goes with the best groupings of the chamber whose seats are nearest to the
 * number of its districts.
 * @param {Page} page
 * @param {Plan} plan
 */
export function quickHtml(page, plan) {
  const districts = countiesOfDistricts(page, plan);
  if (!districts.size) {
    return verdictHtml(false, "No block of this state.", "No code of the plan begins with that of "
      + `a county of ${page.geography.name}.`);
  }
  const away = (/** @type {Answer} */ answer) => Math.abs(answer.seats - districts.size);
  const answer = page.answers.reduce((one, other) => (away(other) < away(one) ? other : one));
  const [best, ...others] = comparedOptions(answer, districts);
  const isEnacted = answer.enacted > 0 && best.option === answer.enacted;
  const whose = isEnacted ? `, the groups of ${page.census.enactedYear}` : "";
  const option = `option ${best.option}${whose}`;
  const follows = !best.crossing.length && districts.size === answer.seats;
  const split = page.geography.counties.filter((_, county) => (
    [...districts.values()].filter((counties) => counties.has(county)).length > 1)).length;
  const head = follows ? `This plan follows ${option}.`
    : `This plan follows none of the ${answer.number} best groupings of the ${answer.name}.`;
  const nearest = best.crossing.length ? `Nearest is ${option}: `
    + `${countedInWords(best.crossing.length, "district")} ${nounFor(best.crossing.length,
      "crosses", "cross")} its groups (${labelWords(best.crossing)}).` : "";
  return html`
    ${verdictHtml(follows, head, html`${nearest} ${numberWords(districts, answer)} <a
    href="${hashOf(page, `${answer.key}/${best.option}`)}">See option ${best.option}</a>`)}
    <p class="note">${counted(plan.blocks, "block")} in ${counted(districts.size, "district")};
    ${counted(split, "county is", "counties are")} in more than one district.
    ${restWords(others)} By the counties of the blocks alone: no people were counted here, and
    whether each group has as many districts as seats is for the audit below. ${plan.note}</p>`;
}

/**
 * Returns whether a plan has another number of districts than the chamber has seats.
 * @param {Map<string, Set<number>>} districts
 * @param {Answer} answer
 */
function numberWords(districts, answer) {
  return districts.size === answer.seats ? ""
    : `It has ${counted(districts.size, "district")}; the ${answer.name} has ${answer.seats} `
      + "seats.";
}

/**
 * Returns how many districts cross the groups of each of the next options, in a sentence.
 * @param {Compared[]} others  the fewest first
 */
function restWords(others) {
  if (!others.length) return "";
  const named = others.slice(0, 4).map(({ option, crossing }, at) => {
    const noun = at ? "" : ` ${nounFor(crossing.length, "district crosses", "districts cross")} `
      + "groups";
    return `with option ${option}, ${numberWord(crossing.length)}${noun}`;
  });
  const rest = others.length - named.length;
  const least = numberWord(others[named.length]?.crossing.length ?? 0);
  const which = rest === 1 ? "the other option" : `each of the other ${numberWord(rest)}`;
  if (rest) named.push(`with ${which}, ${least}${rest === 1 ? "" : " or more"}`);
  return `${capital(named.join("; ").replace(/^with/, "compared with"))}.`;
}
