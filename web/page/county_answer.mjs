// The first sentences of a county's card: with whom the county is grouped in a chamber, and why.

import { groupsOf } from "./answers.mjs";
import { waterPairs } from "./disputed.mjs";
import {
  byPeople, countyName, pairOf, peopleOf, peopleWindow, setKey,
} from "./geography.mjs";
import { toleranceWords } from "./group_words.mjs";
import { html } from "./html.mjs";
import { hashOf } from "./page.mjs";
import { neighborsOf, suitingSeats } from "./seats.mjs";
import { andList, counted, nounFor, numberText, numberWord } from "./words.mjs";

/** @typedef {import("./page.mjs").Page} Page */
/** @typedef {import("./answers.mjs").Answer} Answer */
/** @typedef {import("./answers.mjs").KnownGroup} KnownGroup */
/** @typedef {import("./geography.mjs").Geography} Geography */

/**
 * Returns the groups of the best groupings that have a county.
 * @param {Answer} answer
 * @param {number} county
 */
export function groupsWith(answer, county) {
  return answer.groups.filter((group) => group.counties.includes(county));
}

/**
 * Returns the numbers of the options that have a group, or null if they aren't numbered.
 * @param {Answer} answer
 * @param {KnownGroup} group
 */
export function optionsHaving(answer, group) {
  return answer.options?.map((choices, at) => (
    groupsOf(answer, choices).some((one) => one.id === group.id) ? at + 1 : 0)).filter(Boolean)
    ?? null;
}

/**
 * Returns the names of counties as a list, those with the most people first.
 * @param {Geography} geography
 * @param {number[]} counties
 */
function listed(geography, counties) {
  return andList(byPeople(geography, counties).map((one) => countyName(geography, one)));
}

/**
 * Returns the seats of a group, such as "2 seats", or "12 to 13 seats" if its people suit several.
 * @param {KnownGroup} group
 */
export function seatsWords({ least, most }) {
  return least === most ? counted(least, "seat") : `${least} to ${counted(most, "seat")}`;
}

/**
 * Returns whether a county meets the others of its group over water alone.
 * @param {Geography} geography
 * @param {KnownGroup} group
 * @param {number} county
 */
export function isOverWater(geography, { counties }, county) {
  const water = waterPairs(geography);
  const near = neighborsOf(geography, county).filter((one) => counties.includes(one));
  return near.length > 0 && near.every((one) => water.has(pairOf(county, one).join(" ")));
}

/**
 * Returns that a county meets the group that is told first over water alone, or nothing.
 * @param {Geography} geography
 * @param {KnownGroup[]} groups  those of the county, the one that is told first in front
 * @param {number} county
 */
function waterWords(geography, groups, county) {
  const [first, ...others] = groups.map((group) => isOverWater(geography, group, county));
  if (!first) return "";
  const which = !others.length ? "this group" : others.every(Boolean) ? "these groups"
    : "the first group";
  return ` It meets ${which} only over water.`;
}

/**
 * Returns the groups of a county, the one that is told first in front: the enacted one, or the one
 * that most of the best groupings have.
 * @param {Answer} answer
 * @param {number} county
 */
function groupsInOrder(answer, county) {
  const known = groupsWith(answer, county).map((group) => {
    const options = optionsHaving(answer, group);
    const isEnacted = answer.enacted > 0 && (options?.includes(answer.enacted) ?? false);
    return { group, options, isEnacted };
  });
  return known.sort((one, other) => (
    Number(other.isEnacted) - Number(one.isEnacted)
    || (other.options?.length ?? 0) - (one.options?.length ?? 0)));
}

/**
 * Returns what another group has in place of a group: the counties that differ, or all of them if
 * these are fewer.
 * @param {Geography} geography
 * @param {KnownGroup} group
 * @param {KnownGroup} other
 * @param {number} county
 */
function insteadWords(geography, group, other, county) {
  const rest = other.counties.filter((one) => one !== county);
  const came = other.counties.filter((one) => !group.counties.includes(one));
  const left = group.counties.filter((one) => !other.counties.includes(one));
  const seats = seatsWords(other) === seatsWords(group) ? "" : ` (${seatsWords(other)})`;
  if (!rest.length) return `it is alone${seats}`;
  if (came.length + left.length >= rest.length) {
    return `it is with ${listed(geography, rest)}${seats}`;
  }
  if (!left.length) {
    return `${listed(geography, came)} ${nounFor(came.length, "joins", "join")} them${seats}`;
  }
  if (!came.length) {
    const verb = nounFor(left.length, "isn’t", "aren’t");
    return `${listed(geography, left)} ${verb} among them${seats}`;
  }
  return `${listed(geography, came)} ${nounFor(came.length, "replaces", "replace")} `
    + `${listed(geography, left)}${seats}`;
}

/**
 * Returns in which best groupings a county has its first group, and what it has in the others.
 * @param {Page} page
 * @param {Answer} answer
 * @param {number} county
 * @param {ReturnType<typeof groupsInOrder>} known
 */
function whenWords({ geography, census }, answer, county, known) {
  const [{ group, options, isEnacted }, ...others] = known;
  const enacted = isEnacted ? `, as enacted in ${census.enactedYear}` : "";
  if (!others.length) {
    const all = answer.number === 1 ? "the one best grouping"
      : `all ${numberText(answer.number)} best groupings`;
    return enacted ? `${enacted} and in ${all}` : `, in ${all}`;
  }
  const of = `of ${numberText(answer.number)} best groupings`;
  const first = enacted || (options ? `, in ${options.length} ${of}` : ", in some best groupings");
  if (others.length > 1) {
    return `${first}; other best groupings have it in one of ${numberWord(others.length)} other `
      + "groups";
  }
  const [other] = others;
  const number = other.options?.length ?? 0;
  const rest = number === 1 ? "the other" : `the other ${numberText(number)}`;
  const when = !other.options ? "others" : enacted ? `${numberText(number)} ${of}` : rest;
  return `${first}; in ${when} ${insteadWords(geography, group, other.group, county)}`;
}

/**
 * Returns why a county can't be a group of its own, or that it can.
 * @param {Geography} geography
 * @param {Answer} answer
 * @param {number} county
 */
function aloneWords(geography, answer, county) {
  const own = geography.counties[county].people;
  const [seats] = suitingSeats(geography, answer, own);
  if (seats) return `Its people suit ${counted(seats, "seat")} alone`;
  let under = 0;
  while (peopleWindow(geography.total, answer.seats, under + 1, answer.tolerance)[1] < own) {
    under += 1;
  }
  if (!under) return "Its people are too few for a seat";
  return `Its people are too many for ${counted(under, "seat")}, too few for ${under + 1}`;
}

/**
 * Returns why a county stands in a group of this size and not in a smaller one.
 * @param {Geography} geography
 * @param {Answer} answer
 * @param {number} county
 * @param {KnownGroup} group
 */
function sizeReason(geography, answer, county, group) {
  const [isAlone] = suitingSeats(geography, answer, geography.counties[county].people);
  const others = group.counties.filter((one) => one !== county);
  if (!others.length) return ", so it needs no neighbor";
  const alone = isAlone ? ", but no best grouping has that" : "";
  if (others.length === 1) {
    return `${alone}; with ${countyName(geography, others[0])} they suit ${seatsWords(group)}`;
  }
  const pairs = neighborsOf(geography, county).filter((one) => (
    suitingSeats(geography, answer, peopleOf(geography, [county, one])).length));
  if (!pairs.length) {
    const needs = isAlone ? "its group has" : "it needs";
    return `${alone}, and it makes no lawful pair, so ${needs} at least three counties`;
  }
  const keys = new Set(groupsWith(answer, county).map((one) => setKey(one.counties)));
  if (pairs.some((one) => keys.has(setKey([county, one])))) {
    return `${alone}, and by the rule both groups are equally good`;
  }
  const [only] = pairs;
  return pairs.length > 1
    ? `${alone}, and no best grouping has one of its ${numberWord(pairs.length)} lawful pairs`
    : `${alone}, and no best grouping has its lawful pair with ${countyName(geography, only)}`;
}

/**
 * Returns why a county stands alone or not, and in a group of this size. Where the first chamber
 * was told that it needs three counties, and the same holds of a further one, that is told shortly.
 * @param {Page} page
 * @param {Answer} answer
 * @param {number} county
 * @param {KnownGroup} group
 */
function whyWords({ geography, answers: [first] }, answer, county, group) {
  const people = numberText(geography.counties[county].people);
  const told = (/** @type {Answer} */ one, /** @type {KnownGroup} */ of) => (
    `${aloneWords(geography, one, county)}${sizeReason(geography, one, county, of)}`);
  const own = told(answer, group);
  if (answer === first) return own.replace("Its people", `Its ${people} people`);
  const [before] = groupsInOrder(first, county);
  const isSame = before && own === told(first, before.group);
  return isSame && own.endsWith("it needs at least three counties")
    ? "For the same reasons it needs at least three counties" : own;
}

/**
 * Returns the answer of a chamber for a county in short: with whom it is, and why.
 * @param {Page} page
 * @param {Answer} answer
 * @param {number} county
 */
function shortAnswer(page, answer, county) {
  const { geography, answers } = page;
  const { name } = geography.counties[county];
  const subject = answer === answers[0] ? name : "it";
  const taken = answer.taken.find((set) => set.counties.includes(county));
  if (taken) {
    return html`
      <p>In the <b>${answer.name}</b> ${subject} was taken out beforehand, in a set of
      ${counted(taken.seats, "seat")}.</p>`;
  }
  const known = groupsInOrder(answer, county);
  const [{ group }] = known;
  const others = group.counties.filter((one) => one !== county);
  const seats = seatsWords(group);
  const size = `(${counted(group.counties.length, "county", "counties")}, ${seats})`;
  const where = others.length ? html`with <b>${listed(geography, others)}</b> ${size}`
    : html`<b>alone</b> (${seats})`;
  const when = whenWords(page, answer, county, known);
  const why = whyWords(page, answer, county, group);
  const water = waterWords(geography, known.map((one) => one.group), county);
  return html`<p>In the <b>${answer.name}</b> ${subject} is ${where}${when}.${water} ${why}.</p>`;
}

/**
 * Returns what a reader of a county's card sees first: an answer in short for each chamber, and the
 * rule.
 * @param {Page} page
 * @param {number} county
 */
export function shortAnswers(page, county) {
  const [first] = page.answers;
  const proof = hashOf(page, `proof/${first.key}`);
  return html`
    <div class="short">${page.answers.map((answer) => shortAnswer(page, answer, county))}</div>
    <p class="note">By the rule as many groups as possible have one county, then as many as possible
    two, and so on. This counts the groups of the whole state, so one county’s group may be larger
    than its people need. <a href="${proof}">It is proved</a> that no lawful grouping does better.
    Lawful means that the counties of each group are connected, and that its people suit a whole
    number of seats, within ${toleranceWords(first.tolerance)} of the ideal. A lawful grouping may
    be used only if it is best.</p>`;
}
