// The counties of a state: names, people, borders, and the sheet on which they are drawn.

/** @typedef {{geoid: string, name: string, people: number}} County */
/**
 * A group of a grouping. `counties` are places in the list of counties, most people first.
 * `area` is the number of its area of choice from 0, or -1; `choice` its choice there.
 * @typedef {{seats: number, counties: number[], area: number, choice: number, tint: number,
 *   id: number}} Group
 */
/**
 * The counties of a state. `borders` are the pairs that count as neighbors, the smaller place
 * first.
 * @typedef {{code: string, name: string, counties: County[], total: number,
 *   placeOf: Map<string, number>, borders: [number, number][],
 *   sheet: import('./sheet.mjs').Sheet | null}} Geography
 */

const ENDINGS = /,? (County|Parish|Borough|Census Area|Municipality|Planning Region)(, [A-Z]{2})?$/;

/**
 * Returns a county's name as a map writes it: without "County".
 * @param {string} name
 */
export function shortName(name) {
  return name.replace(ENDINGS, "").replace(/, [A-Z]{2}$/, "");
}

/**
 * Returns the geography of counties in the order of their codes.
 * @param {string} code  the state's two digits
 * @param {string} name
 * @param {County[]} counties
 * @returns {Geography}
 */
export function geographyOf(code, name, counties) {
  const ordered = [...counties].sort((one, other) => (one.geoid < other.geoid ? -1 : 1));
  const placeOf = new Map(ordered.map((county, place) => [county.geoid, place]));
  const total = ordered.reduce((sum, county) => sum + county.people, 0);
  return { code, name, counties: ordered, total, placeOf, borders: [], sheet: null };
}

/**
 * Returns the pairs of listed counties that a file of borders names, each once.
 * @param {Geography} geography
 * @param {string} text  an adjacency file: codes in the second and the fourth field
 * @returns {[number, number][]}
 */
export function bordersOf(geography, text) {
  /** @type {Map<string, [number, number]>} */
  const found = new Map();
  for (const line of text.split("\n")) {
    const fields = line.replace(/\r$/, "").split("|");
    const one = geography.placeOf.get(fields[1]);
    const other = geography.placeOf.get(fields[3]);
    if (one === undefined || other === undefined || one === other) continue;
    const pair = pairOf(one, other);
    found.set(pair.join(" "), pair);
  }
  return [...found.values()].sort((some, more) => some[0] - more[0] || some[1] - more[1]);
}

/**
 * Returns two places, the smaller first.
 * @param {number} one
 * @param {number} other
 * @returns {[number, number]}
 */
export function pairOf(one, other) {
  return one < other ? [one, other] : [other, one];
}

/**
 * Returns the name of the county at a place.
 * @param {Geography} geography
 * @param {number} place
 */
export function countyName(geography, place) {
  return geography.counties[place].name;
}

/**
 * Returns how many people live in counties.
 * @param {Geography} geography
 * @param {number[]} counties
 */
export function peopleOf(geography, counties) {
  return counties.reduce((sum, place) => sum + geography.counties[place].people, 0);
}

/**
 * Returns counties with the most people first.
 * @param {Geography} geography
 * @param {number[]} counties
 */
export function byPeople(geography, counties) {
  const people = (/** @type {number} */ place) => geography.counties[place].people;
  return [...counties].sort((one, other) => people(other) - people(one) || one - other);
}

/**
 * Returns the places of codes, most people first; codes that aren't listed are left out.
 * @param {Geography} geography
 * @param {string[]} codes
 */
export function placesOf(geography, codes) {
  /** @type {number[]} */
  const places = [];
  for (const code of codes) {
    const place = geography.placeOf.get(code);
    if (place !== undefined) places.push(place);
  }
  return byPeople(geography, places);
}

/**
 * Returns the codes of counties, ascending.
 * @param {Geography} geography
 * @param {number[]} counties
 */
export function codesOf(geography, counties) {
  return counties.map((place) => geography.counties[place].geoid).sort();
}

/**
 * Returns a text that is the same for the same set of counties.
 * @param {number[]} counties
 */
export function setKey(counties) {
  return [...counties].sort((one, other) => one - other).join(" ");
}

/**
 * Returns the least and the greatest number of people that suit `seats` of a chamber.
 * @param {number} total  the people of the state
 * @param {number} chamber  the seats of the chamber
 * @param {number} seats
 * @param {[number, number]} tolerance  numerator and denominator, such as 1 and 20
 */
export function peopleWindow(total, chamber, seats, [numerator, denominator]) {
  const least = Math.ceil((total * seats * (denominator - numerator)) / (denominator * chamber));
  const most = Math.floor((total * seats * (denominator + numerator)) / (denominator * chamber));
  return [least, most];
}

/**
 * Returns how far the people per seat of a group lie from the ideal, as a share of it.
 * @param {Geography} geography
 * @param {{seats: number, counties: number[]}} group
 * @param {number} chamber
 */
export function deviationOf(geography, group, chamber) {
  return (peopleOf(geography, group.counties) / group.seats) * (chamber / geography.total) - 1;
}
