// What is said of groups: names, numbers and differences, in words.

import {
  byPeople, countyName, deviationOf, peopleOf, peopleWindow,
} from "./geography.mjs";
import { mostInCommon } from "./answers.mjs";
import { html } from "./html.mjs";
import {
  andList, countedInWords, deviationWords, nounFor, numberText,
  numberWord,
} from "./words.mjs";

/** @typedef {import('./geography.mjs').Geography} Geography */
/** @typedef {import('./geography.mjs').Group} Group */
/** @typedef {import('./answers.mjs').Answer} Answer */

/**
 * Returns the names of counties.
 * @param {Geography} geography
 * @param {number[]} counties
 */
export function namesOf(geography, counties) {
  return counties.map((place) => countyName(geography, place));
}

/**
 * Returns a group's name: its counties, or the largest and how many more.
 * @param {Geography} geography
 * @param {{counties: number[]}} group
 */
export function groupName(geography, group) {
  const names = namesOf(geography, group.counties);
  if (names.length <= 3) return andList(names);
  return `${names[0]} and ${numberWord(names.length - 1)} more`;
}

/**
 * Returns a group's counties, seats and people in one sentence or two.
 * @param {Geography} geography
 * @param {Group} group
 * @param {number} chamber
 */
export function groupSentence(geography, group, chamber) {
  const people = numberText(peopleOf(geography, group.counties));
  const off = deviationWords(deviationOf(geography, group, chamber));
  const seats = `${group.seats} ${nounFor(group.seats, "seat")}`;
  const names = namesOf(geography, group.counties).join(", ");
  const rest = group.counties.length > 3 ? ` ${names}.` : "";
  return `${groupName(geography, group)}: ${seats}, ${people} people, ${off}.${rest}`;
}

/**
 * Returns how many people suit the seats of a group, or nothing for one seat.
 * @param {Geography} geography
 * @param {Group} group
 * @param {{seats: number, tolerance: [number, number]}} chamber
 */
export function windowWords(geography, group, chamber) {
  if (group.seats === 1) return "";
  const [least, most] = peopleWindow(
    geography.total, chamber.seats, group.seats, chamber.tolerance);
  return `${group.seats} seats allow ${numberText(least)} to ${numberText(most)} people.`;
}

/**
 * Returns the tolerance in percent, such as "5 percent".
 * @param {[number, number]} tolerance
 */
export function toleranceWords([numerator, denominator]) {
  const percent = Number(((100 * numerator) / denominator).toFixed(2));
  const isExact = (percent * denominator) / 100 === numerator;
  return isExact ? `${percent} percent` : `${numerator}/${denominator} of it`;
}

/**
 * Returns for each county that leads a group which counties go with it by one choice, and by
 * another.
 * @param {Geography} geography
 * @param {Group[]} some
 * @param {Group[]} others
 * @param {string[]} numbers  those of the two choices
 */
export function differenceItems(geography, some, others, numbers) {
  const left = [...others];
  /** @type {import("./html.mjs").Html[]} */
  const items = [];
  for (const group of some) {
    const { group: other, common } = mostInCommon(geography, group, left);
    if (!other) continue;
    left.splice(left.indexOf(other), 1);
    const lead = countyName(geography, byPeople(geography, common)[0]);
    const one = companions(geography, group, other);
    const two = companions(geography, other, group);
    items.push(html`
      <li><b>${lead}</b> goes with <i>${numbers[0]}</i> ${one}, or <i>${numbers[1]}</i> ${two}
      </li>`);
  }
  return items;
}

/**
 * Returns which counties a group has that another hasn't, with its seats if they differ.
 * @param {Geography} geography
 * @param {Group} group
 * @param {Group} other
 */
function companions(geography, group, other) {
  const more = group.counties.filter((county) => !other.counties.includes(county));
  const names = more.length ? andList(namesOf(geography, more).sort()) : "no others";
  const seats = group.seats === other.seats ? "" : ` (${countedInWords(group.seats, "seat")})`;
  return names + seats;
}

/**
 * Returns a sentence for each group whose counties came from several groups of before.
 * @param {Geography} geography
 * @param {Group[]} groups
 * @param {Set<number>} moved
 */
export function moveSentences(geography, groups, moved) {
  /** @type {string[]} */
  const sentences = [];
  for (const group of groups) {
    const came = group.counties.filter((county) => moved.has(county));
    const stayed = group.counties.filter((county) => !moved.has(county));
    if (!came.length || !stayed.length) continue;
    const names = andList(namesOf(geography, came).sort());
    const lead = countyName(geography, stayed[0]);
    sentences.push(`${names} now ${came.length === 1 ? "goes" : "go"} with ${lead}.`);
  }
  return sentences;
}

/**
 * Returns a choice of an area by the numbers that `list` gives them, as "Foothills, alternative 2
 * of region 4".
 * @param {{name: string, number: number}} area
 * @param {number} choice  from 0
 */
export function choiceWords({ name, number }, choice) {
  return `${name}, alternative ${choice + 1} of region ${number}`;
}

/**
 * Returns in which options a group is, for a column of a table.
 * @param {Answer} answer
 * @param {Group} group
 */
export function optionWords(answer, group) {
  if (group.area < 0) return answer.number === 1 ? "the only one" : `all ${answer.number}`;
  return `region ${answer.areas[group.area].number}, alternative ${group.choice + 1}`;
}
