// Why not another group? The rest of the state is solved with the group taken out, and its counts
// with the group are compared with those of the best groupings.

import { byPeople, codesOf, countyName, peopleOf, setKey } from "./geography.mjs";
import { andList, counted, nounFor, numberText, numberWord } from "./words.mjs";
import { carriedProblem, startProgram, withFile } from "./program.mjs";
import { html } from "./html.mjs";
import { chamberWords } from "./page.mjs";
import { plainWords } from "./problem.mjs";
import { readReport, refusalOf } from "./program_texts.mjs";
import { idealWords, joinedParts, suitingSeats } from "./seats.mjs";

/** @typedef {import("./page.mjs").Page} Page */
/** @typedef {import("./answers.mjs").Answer} Answer */
/** @typedef {import("./html.mjs").Html} Html */
/** @typedef {{isBest: boolean, words: Html}} Verdict */

/**
 * Returns the first size at which counts differ, with both numbers, or null.
 * @param {number[]} some
 * @param {number[]} others
 */
export function firstDifference(some, others) {
  const length = Math.max(some.length, others.length);
  for (let at = 0; at < length; at += 1) {
    const [one, other] = [some[at] ?? 0, others[at] ?? 0];
    if (one !== other) return { size: at + 1, one, other };
  }
  return null;
}

/**
 * Returns "group of one county", "groups of three counties".
 * @param {number} count
 * @param {number} size
 */
export function sizeWords(count, size) {
  return `${nounFor(count, "group")} of ${numberWord(size)} ${nounFor(size, "county", "counties")}`;
}

/**
 * Returns why counties can't be a group, without asking the program, or null if they can.
 * @param {Page} page
 * @param {Answer} answer
 * @param {number[]} counties
 * @returns {Verdict | null}
 */
export function unlawfulGroup({ geography }, answer, counties) {
  const names = andList(byPeople(geography, counties).map((one) => countyName(geography, one)));
  const [apart, ...rest] = joinedParts(geography.borders, counties);
  if (rest.length) {
    const alone = andList(apart.map((one) => countyName(geography, one)));
    return { isBest: false, words: html`
      <b>${names}</b> aren’t connected by the borders that count: ${alone}
      ${nounFor(apart.length, "touches", "touch")} none of the others. So no lawful grouping has
      this group.` };
  }
  const people = peopleOf(geography, counties);
  if (suitingSeats(geography, answer, people).length) return null;
  return { isBest: false, words: html`
    <b>${names}</b> ${nounFor(counties.length, "has", "have")} ${numberText(people)} people,
    ${idealWords(geography, answer, people)} ideal districts of ${chamberWords(answer)}. No whole
    number of seats is near enough, so no lawful grouping has this group.` };
}

/**
 * Returns the greatest counts of a grouping that has a group with these seats, or null if the rest
 * can't be grouped lawfully. Rejects if the program doesn't answer.
 * @param {Page} page
 * @param {Answer} answer
 * @param {number[]} counties
 * @param {number} seats
 */
async function countsWith(page, answer, counties, seats) {
  const codes = codesOf(page.geography, counties);
  const set = `${[seats, ...codes].join("|")}\n`;
  const files = withFile(await carriedProblem(), "withdrawn", set);
  const words = ["solve", ...plainWords(page, answer), "--withdrawn", "withdrawn"];
  const { result } = await startProgram(words, files);
  const run = await result;
  if (run.status === 1) return null;
  if (run.status !== 0) throw new Error(refusalOf(run, 1));
  const { counts } = readReport(run.output);
  while (counts.length < counties.length) counts.push(0);
  counts[counties.length - 1] += 1;
  return counts;
}

/**
 * Returns whether some best grouping has a group of these counties, and why not. Rejects if the
 * program doesn't answer.
 * @param {Page} page
 * @param {Answer} answer
 * @param {number[]} counties
 * @returns {Promise<Verdict>}
 */
export async function whyNotGroup(page, answer, counties) {
  const { geography } = page;
  const plain = unlawfulGroup(page, answer, counties);
  if (plain) return plain;
  const start = performance.now();
  const people = peopleOf(geography, counties);
  /** @type {{seats: number, counts: number[] | null}[]} */
  const tried = [];
  for (const seats of suitingSeats(geography, answer, people)) {
    tried.push({ seats, counts: await countsWith(page, answer, counties, seats) });
  }
  const seconds = ((performance.now() - start) / 1000).toFixed(1);
  const names = andList(byPeople(geography, counties).map((one) => countyName(geography, one)));
  const lawful = html`
    <b>${names}</b> would be a lawful group: ${counted(tried[0].seats, "seat")},
    ${numberText(people)} people.`;
  const known = tried.filter((one) => one.counts !== null);
  if (!known.length) {
    return { isBest: false, words: html`
      ${lawful} But then the rest of the state can’t be grouped lawfully at all. So no lawful
      grouping has this group. Proved in this page in ${seconds} s.` };
  }
  const lesser = known.map((one) => firstDifference(answer.counts, one.counts ?? []));
  return lesser.includes(null) ? { isBest: true, words: inSomeWords(answer, names, counties) }
    : { isBest: false, words: html`${lawful} ${lesserWords(lesser)} ${seconds} s.` };
}

/**
 * Returns the words of a group that some best grouping has.
 * @param {Answer} answer
 * @param {string} names
 * @param {number[]} counties
 */
function inSomeWords(answer, names, counties) {
  const key = setKey(counties);
  const group = answer.groups.find((one) => setKey(one.counties) === key);
  const isShared = group !== undefined && answer.shared.includes(group.id);
  const where = isShared ? `all ${answer.number} best groupings` : "some of the best groupings";
  return html`<b>${names}</b> are a group of ${where}.`;
}

/**
 * Returns whether a best grouping has counties in one larger group, and with which others.
 * @param {import("./geography.mjs").Geography} geography
 * @param {Answer} answer
 * @param {number[]} counties
 */
export function togetherWords(geography, answer, counties) {
  const larger = answer.groups.filter((group) => (
    counties.every((one) => group.counties.includes(one))));
  if (!larger.length) return "No best grouping has them in one group.";
  const others = larger.map((group) => {
    const rest = group.counties.filter((one) => !counties.includes(one));
    const names = byPeople(geography, rest).map((one) => countyName(geography, one));
    return `with ${andList(names)} in ${answer.shared.includes(group.id) ? "all" : "some"}`;
  });
  return `The best groupings have them in a larger group: ${others.join("; ")}.`;
}

/**
 * Returns by which counts groupings with a group fall short.
 * @param {ReturnType<typeof firstDifference>[]} found
 */
function lesserWords(found) {
  const [{ size, one, other }] = found.flatMap((it) => (it ? [it] : []));
  const smaller = size > 1 ? ", with as many smaller ones" : "";
  return `But then the state has at most ${numberWord(other)} ${sizeWords(other, size)} in place `
    + `of ${numberWord(one)}${smaller}. So no best grouping has this group, and by the rule only a `
    + "best one may be used. Proved in this page in";
}
