// What the page shows now: the view, the chamber, and the option of each chamber.

import { choicesOf, groupsOf } from "./answers.mjs";
import { answerFor, firstOption } from "./page.mjs";

/** @typedef {import("./answers.mjs").Answer} Answer */
/** @typedef {import("./page.mjs").Page} Page */
/** @typedef {"answer" | "proof" | "whatif" | "files"} ViewName */
/**
 * What the page shows. `option` has the numbers of the options of the census that is shown, by the
 * keys of the chambers, and `options` those of each census. `free` has the choices of an answer
 * whose options aren't numbered. `county` is the county whose card is open, or null.
 * @typedef {{view: ViewName, chamber: string, option: Map<string, number>,
 *   options: Map<number, Map<string, number>>, free: Map<string, number[]>, isPrinted: boolean,
 *   county: number | null}} ViewState
 */

/**
 * Returns the state in which the page opens.
 * @param {Page} page
 * @returns {ViewState}
 */
export function firstState(page) {
  /** @type {ViewState} */
  const state = {
    view: "answer", chamber: page.answers[0].key, option: new Map(), options: new Map(),
    free: new Map(), isPrinted: false, county: null,
  };
  useOptions(page, state);
  return state;
}

/**
 * Has the state name the options of the census that the page shows.
 * @param {Page} page
 * @param {ViewState} state
 */
export function useOptions(page, state) {
  const { year } = page.census;
  const known = state.options.get(year)
    ?? new Map(page.answers.map((answer) => [answer.key, firstOption(answer)]));
  state.options.set(year, known);
  state.option = known;
}

/**
 * Returns the number of the option that a chamber shows.
 * @param {ViewState} state
 * @param {string} key
 */
export function shownOption(state, key) {
  return state.option.get(key) ?? 1;
}

/**
 * Returns the choices that an answer shows, also where its options aren't numbered.
 * @param {ViewState} state
 * @param {Answer} answer
 */
export function shownChoices(state, answer) {
  if (answer.options) return choicesOf(answer, shownOption(state, answer.key));
  return state.free.get(answer.key) ?? answer.first;
}

/**
 * Returns the answer that is shown, its choices and its groups.
 * @param {Page} page
 * @param {ViewState} state
 */
export function current(page, state) {
  const answer = answerFor(page, state.chamber);
  const option = shownOption(state, answer.key);
  const choices = shownChoices(state, answer);
  return { answer, option, choices, groups: groupsOf(answer, choices) };
}
