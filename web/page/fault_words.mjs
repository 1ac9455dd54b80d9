// What is wrong with a grouping that the program found not lawful, in a sentence.

import { byPeople, countyName, peopleOf, peopleWindow } from "./geography.mjs";
import { groupName } from "./group_words.mjs";
import { chamberWords } from "./page.mjs";
import { joinedParts } from "./seats.mjs";
import { andList, capital, counted, nounFor, numberText } from "./words.mjs";

/** @typedef {import("./geography.mjs").Geography} Geography */
/** @typedef {import("./answers.mjs").Answer} Answer */
/** @typedef {{seats: number, counties: number[]}} GivenGroup */

/**
 * Returns which counties of a group touch none of the others.
 * @param {Geography} geography
 * @param {GivenGroup} group
 */
function apartWords(geography, { counties }) {
  const ordered = byPeople(geography, counties);
  const [apart, ...rest] = joinedParts(geography.borders, ordered);
  const names = (/** @type {number[]} */ some) => andList(some.map((one) => (
    countyName(geography, one))));
  const verb = nounFor(apart.length, "touches", "touch");
  return `${names(apart)} ${verb} none of the others in the group of `
    + `${names(rest.flat())}.`;
}

/**
 * Returns what the first fault of a grouping is, and the group that it names.
 * @param {Geography} geography  with the borders that count
 * @param {Answer} answer
 * @param {GivenGroup[]} groups  in the order of the grouping text
 * @param {string} output  what `judge` printed
 */
export function faultWords(geography, answer, groups, output) {
  const [, kind, ...words] = output.trim().split("\n")[0].split(" ");
  const group = words[0] === "group" ? groups[Number(words[1]) - 1] : undefined;
  const place = geography.placeOf.get(words[words.length - 1]);
  const county = place === undefined ? "a county" : countyName(geography, place);
  let told = output.trim();
  if (kind === "OutOfWindow" && group) {
    const [least, most] = peopleWindow(
      geography.total, answer.seats, group.seats, answer.tolerance);
    const people = peopleOf(geography, group.counties);
    told = `${groupName(geography, { counties: byPeople(geography, group.counties) })}: `
      + `${numberText(people)} people are too ${people < least ? "few" : "many"} for `
      + `${counted(group.seats, "seat")}. Allowed: ${numberText(least)} to ${numberText(most)}.`;
  } else if (kind === "NotConnected" && group) told = apartWords(geography, group);
  else if (kind === "Missing") told = `No group has ${county}.`;
  else if (kind === "Twice") told = `${county} stands in two groups.`;
  else if (kind === "SeatsTotal") {
    told = `The groups have ${words[1]} seats; ${chamberWords(answer)} has ${words[3]}.`;
  }
  return { told: capital(told), group };
}
