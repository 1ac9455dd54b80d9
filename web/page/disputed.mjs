// The borders in dispute: neighbors that share no line in the outlines, and counties that meet at a
// point and aren't neighbors.

/** @typedef {import("./geography.mjs").Geography} Geography */
/**
 * A pair in dispute. `link` is the line of a links file that changes it: a minus cuts, a plus adds.
 * @typedef {{pair: [number, number], kind: "water" | "touch" | "point", link: string}} Disputed
 */

/**
 * Returns the links line that adds or cuts a pair.
 * @param {Geography} geography
 * @param {[number, number]} pair
 * @param {boolean} isAdded
 */
export function linkLine(geography, pair, isAdded) {
  const [one, other] = pair.map((place) => geography.counties[place].geoid);
  return `${isAdded ? "+" : "-"}|${one}|${other}`;
}

/**
 * Returns the pairs of neighbors that meet over water, each as its two places with a blank between.
 * @param {Geography} geography
 */
export function waterPairs(geography) {
  const pairs = tieKinds(geography).filter((one) => one.kind === "water");
  return new Set(pairs.map((one) => one.pair.join(" ")));
}

/**
 * Returns the pairs in dispute: over water, at a point and counted, at a point and not counted.
 * @param {Geography} geography
 * @returns {Disputed[]}
 */
export function tieKinds(geography) {
  const sheet = geography.sheet;
  if (!sheet) return [];
  /** @type {Disputed[]} */
  const counted = sheet.ties.map(({ pair, isPoint }) => (
    { pair, kind: isPoint ? "touch" : "water", link: linkLine(geography, pair, false) }));
  const uncounted = sheet.pointPairs.map((pair) => (
    { pair, kind: /** @type {const} */ ("point"), link: linkLine(geography, pair, true) }));
  return [...counted, ...uncounted];
}
