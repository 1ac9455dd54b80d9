// Which borders matter: what becomes of the answer if one border in dispute is changed alone.

import { ProcessError } from "../host/browser_process.mjs";
import { pairCodes, startWhatIf } from "./what_if.mjs";
import { carriedProblem } from "./program.mjs";
import { rowsOf } from "./tables.mjs";
import { counted } from "./words.mjs";

/** @typedef {import("./page.mjs").Page} Page */
/** @typedef {import("./answers.mjs").Answer} Answer */
/** @typedef {import("./disputed.mjs").Disputed} Disputed */
/** @typedef {import("./what_if.mjs").WhatIf} WhatIf */
/** @typedef {import("./what_if.mjs").Outcome} Outcome */
/**
 * What becomes of the answer for each link: nothing, if the words are empty.
 * @typedef {Map<string, string>} Trials
 */

const WORKERS = 2;

/**
 * Returns what a table of `tools/what_if.py` says of each link.
 * @param {string} table
 * @returns {Trials}
 */
export function storedTrials(table) {
  const [base, ...rows] = rowsOf(table, ",").slice(1);
  /** @type {Trials} */
  const trials = new Map();
  for (const [sign, one, other, best, , counts, changes] of rows) {
    const words = changes === "nothing" ? "" : changeWords(
      { best: base[3], counts: base[5] }, { best, counts });
    trials.set(`${sign}|${one}|${other}`, words);
  }
  return trials;
}

/**
 * Returns in a few words how an answer differs from the base answer.
 * @param {{best: string, counts: string}} base
 * @param {{best: string, counts: string}} other
 */
function changeWords(base, other) {
  if (!other.best) return "no lawful grouping";
  if (other.counts !== base.counts) return "better groups";
  if (other.best !== base.best) return `${other.best} best instead of ${base.best}`;
  return "other groups";
}

/**
 * Returns what an outcome says, to be compared.
 * @param {Outcome} outcome
 */
function factsOf({ answer, report }) {
  const groups = answer ? answer.groups.map((group) => group.codes.join(" ")).sort().join("|") : "";
  return { best: answer ? String(answer.number) : "", counts: report.counts.join(" "), groups };
}

/**
 * Returns in a few words how facts differ from the first ones, or nothing.
 * @param {ReturnType<typeof factsOf>} first
 * @param {ReturnType<typeof factsOf>} facts
 */
function factsWords(first, facts) {
  const isSame = facts.groups === first.groups && facts.best === first.best
    && facts.counts === first.counts;
  return isSame ? "" : changeWords(first, facts);
}

/**
 * Returns what solves what-ifs for their facts, and what stops those at work and all later ones.
 * @param {Page} page
 * @param {Answer} base
 */
function startSolver(page, base) {
  const files = carriedProblem();
  /** @type {Set<() => void>} */
  const stops = new Set();
  let isStopped = false;
  const solve = async (/** @type {WhatIf} */ one) => {
    const { outcome, stop } = await startWhatIf(page, base, one, await files, () => {}, false);
    stops.add(stop);
    if (isStopped) stop();
    const found = await outcome.finally(() => stops.delete(stop));
    // (one that ended just before the stop isn't told any more)
    if (isStopped) throw new ProcessError("it was stopped", true);
    return factsOf(found);
  };
  const stopAll = () => {
    isStopped = true;
    stops.forEach((one) => one());
  };
  return { solve, stopAll };
}

/**
 * Tries each disputed border alone, on top of a what-if without changed borders, and tells of each.
 * After a fault, as after `stop`, it tells of none.
 * @param {Page} page
 * @param {Answer} base
 * @param {WhatIf} whatIf
 * @param {Disputed[]} disputed
 * @param {(done: number, trials: Trials) => void} onTrial
 * @returns {{finished: Promise<Trials>, stop: () => void}}
 */
export function startTrials(page, base, whatIf, disputed, onTrial) {
  const plain = { ...whatIf, added: new Set(), cut: new Set() };
  const { solve, stopAll } = startSolver(page, base);
  /** @type {Trials} */
  const trials = new Map();
  const left = [...disputed];
  const work = async (/** @type {ReturnType<typeof factsOf>} */ first) => {
    for (let next = left.shift(); next; next = left.shift()) {
      const codes = new Set([pairCodes(page.geography, next.pair)]);
      const facts = await solve(
        next.kind === "point" ? { ...plain, added: codes } : { ...plain, cut: codes });
      trials.set(next.link, factsWords(first, facts));
      onTrial(trials.size, trials);
    }
  };
  const all = async () => {
    const first = await solve(plain);
    await Promise.all(Array.from({ length: WORKERS }, () => work(first)));
    return trials;
  };
  const finished = all().catch((fault) => {
    stopAll();
    throw fault;
  });
  return { finished, stop: stopAll };
}

/**
 * Returns how many borders matter, in a sentence.
 * @param {Trials} trials
 */
export function trialsWords(trials) {
  const matter = [...trials.values()].filter(Boolean).length;
  const rest = matter === 1 ? "it changes" : "they change";
  if (!matter) return `Each of ${counted(trials.size, "border")} was tried alone: none matters.`;
  return `Each of ${counted(trials.size, "border")} was tried alone: ${matter} `
    + `${matter === 1 ? "matters" : "matter"}, ${rest} the list of best groupings.`;
}
