// How many seats people suit, how far a group is from losing them, and whether counties join.

import { peopleOf, peopleWindow } from "./geography.mjs";

/** @typedef {import("./geography.mjs").Geography} Geography */
/** @typedef {{seats: number, tolerance: [number, number]}} Chamber */

/**
 * Returns the neighbors of a county by the borders that count.
 * @param {Geography} geography
 * @param {number} county
 */
export function neighborsOf({ borders }, county) {
  return borders.filter((pair) => pair.includes(county)).map(([one, other]) => (
    one === county ? other : one));
}

/**
 * Returns counties in the parts that borders join, the smallest part first.
 * @param {number[][]} borders
 * @param {number[]} counties
 */
export function joinedParts(borders, counties) {
  const left = new Set(counties);
  /** @type {number[][]} */
  const parts = [];
  for (const first of counties.filter((county) => left.has(county))) {
    if (!left.delete(first)) continue;
    const part = [first];
    for (const at of part) {
      for (const [one, other] of borders) {
        const next = one === at ? other : other === at ? one : -1;
        if (left.delete(next)) part.push(next);
      }
    }
    parts.push(part);
  }
  return parts.sort((one, other) => one.length - other.length);
}

/**
 * Returns all numbers of seats that people suit, ascending.
 * @param {Geography} geography
 * @param {Chamber} chamber
 * @param {number} people
 */
export function suitingSeats(geography, chamber, people) {
  /** @type {number[]} */
  const found = [];
  for (let seats = 1; seats <= chamber.seats; seats += 1) {
    const [least, most] = peopleWindow(geography.total, chamber.seats, seats, chamber.tolerance);
    if (people >= least && people <= most) found.push(seats);
  }
  return found;
}

/**
 * Returns how many more and how many fewer people a group may have and keep its seats. The people
 * of the state stay.
 * @param {Geography} geography
 * @param {Chamber} chamber
 * @param {{counties: number[], least: number}} group  `least` is its number of seats
 */
export function roomOf(geography, chamber, { counties, least: seats }) {
  const people = peopleOf(geography, counties);
  const [least, most] = peopleWindow(geography.total, chamber.seats, seats, chamber.tolerance);
  return { more: most - people, fewer: people - least };
}

/**
 * Returns how many ideal districts people are, with two digits.
 * @param {Geography} geography
 * @param {Chamber} chamber
 * @param {number} people
 */
export function idealWords(geography, chamber, people) {
  return ((people * chamber.seats) / geography.total).toFixed(2);
}

/**
 * Returns the seats that the people of counties come nearest to, at least 1.
 * @param {Geography} geography
 * @param {number[]} counties
 * @param {number} chamber
 */
export function likelySeats(geography, counties, chamber) {
  return Math.max(1, Math.round((peopleOf(geography, counties) * chamber) / geography.total));
}
