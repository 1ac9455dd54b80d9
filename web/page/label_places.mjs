// Places of labels on a sheet, each computed once.

/** @typedef {import('./sheet.mjs').Sheet} Sheet */

/** @type {WeakMap<Sheet, Map<string, unknown>>} */
const known = new WeakMap();

/**
 * Returns what `find` gives for a key of a sheet; it is called once for each key.
 * @template T
 * @param {Sheet} sheet
 * @param {string} key  all that the places depend on
 * @param {() => T} find
 * @returns {T}
 */
export function placesFor(sheet, key, find) {
  let places = known.get(sheet);
  if (!places) known.set(sheet, (places = new Map()));
  if (!places.has(key)) places.set(key, find());
  return /** @type {T} */ (places.get(key));
}
