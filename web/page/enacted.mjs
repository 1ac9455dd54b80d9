// Whether the enacted groups are best, lawful or not lawful under a what-if, and why.

import { codesOf, countyName, pairOf, placesOf } from "./geography.mjs";
import { faultWords } from "./fault_words.mjs";
import { chamberWords, textsFor } from "./page.mjs";
import { withFile } from "./program.mjs";
import { isLawful, messageOf, readGrouping, readReport } from "./program_texts.mjs";
import { firstDifference, sizeWords } from "./other_group.mjs";
import { verdictHtml } from "./dom.mjs";
import { html } from "./html.mjs";
import { andList, numberWord } from "./words.mjs";

/** @typedef {import("./page.mjs").Page} Page */
/** @typedef {import("./answers.mjs").Answer} Answer */
/** @typedef {import("./geography.mjs").Geography} Geography */
/** @typedef {import("./program.mjs").Files} Files */
/** @typedef {import("./program.mjs").Run} Run */
/** @typedef {import("./what_if.mjs").WhatIf} WhatIf */
/** @typedef {import("./what_if.mjs").Outcome} Outcome */
/**
 * What the program says of the enacted groups; `why` says in a sentence why they aren't best,
 * aren't lawful, or aren't compared.
 * @typedef {{verdict: "best" | "lawful" | "not lawful" | "not compared", why: string}} Enacted
 */

/**
 * Returns the enacted groups without those that are taken out as they are, or a sentence why the
 * rest can't be compared.
 * @param {Page} page
 * @param {Answer} base
 * @param {WhatIf} whatIf
 */
function enactedLeft({ geography, census }, base, whatIf, text = "") {
  const groups = readGrouping(text);
  const keyOf = (/** @type {string[]} */ codes) => [...codes].sort().join(" ");
  const known = new Map(groups.map((group) => [keyOf(group.codes), group]));
  for (const { counties, seats } of whatIf.sets) {
    const codes = codesOf(geography, counties);
    const group = known.get(keyOf(codes));
    if (!counties.length) continue;
    if (!group || group.seats !== seats) {
      const names = andList(counties.map((one) => countyName(geography, one)));
      const whose = `${names} with ${seats} of ${chamberWords(base)}’s seats`;
      const year = census.enactedYear;
      return { groups: null, why: `${whose} isn’t one of the groups of ${year}, so the rest can’t `
        + "be compared with them." };
    }
    known.delete(keyOf(codes));
  }
  return { groups: [...known.values()], why: "" };
}

/**
 * Returns what the program says of the enacted groups, or null if the page has none. Rejects if a
 * run is stopped.
 * @param {Page} page
 * @param {Answer} base
 * @param {WhatIf} whatIf
 * @param {Outcome} found
 * @param {(words: string[], files: Files) => Promise<Run>} run
 * @returns {Promise<Enacted | null>}
 */
export async function judgedEnacted(page, base, whatIf, found, run) {
  const text = textsFor(page, base.key).enacted;
  if (!text) return null;
  const { groups, why } = enactedLeft(page, base, whatIf, text);
  if (!groups) return { verdict: "not compared", why };
  const lines = groups.map(({ seats, codes }) => `${[seats, ...codes].join("|")}\n`).join("");
  let files = withFile(found.files, "grouping", lines);
  const words = ["judge", ...found.words, "--grouping", "grouping"];
  if (found.certificate && found.status === 0) {
    files = withFile(files, "certificate", found.certificate);
    words.push("--certificate", "certificate");
  }
  const judged = await run(words, files);
  const report = readReport(judged.output);
  if (isLawful(report)) {
    return report.answer === "best" ? { verdict: "best", why: "" }
      : { verdict: "lawful", why: lesserWords(found.report.counts, report.counts) };
  }
  if (judged.status !== 1) return { verdict: "not compared", why: judged.errors.trim() };
  const { geography } = found;
  const given = groups.map(({ seats, codes }) => (
    { seats, counties: placesOf(geography, codes) }));
  const borders = changedBorders(geography, whatIf);
  const said = messageOf(judged.output);
  const { told } = faultWords({ ...geography, borders }, base, given, said);
  return { verdict: "not lawful", why: told };
}

/**
 * Returns at which size lawful groups fall short of the best ones, in a sentence.
 * @param {number[]} best
 * @param {number[]} own
 */
function lesserWords(best, own) {
  const differing = firstDifference(best, own);
  if (!differing) return "";
  const { size, one, other } = differing;
  return `They have ${numberWord(other)} ${sizeWords(other, size)}; a best grouping has `
    + `${numberWord(one)}.`;
}

/**
 * Returns the borders that count in a what-if.
 * @param {Geography} geography
 * @param {WhatIf} whatIf
 */
function changedBorders({ borders, placeOf }, { added, cut }) {
  const places = (/** @type {string} */ codes) => {
    const [one, other] = codes.split(" ").map((code) => placeOf.get(code) ?? -1);
    return pairOf(one, other);
  };
  const gone = new Set([...cut].map((codes) => places(codes).join(" ")));
  return [...borders.filter((pair) => !gone.has(pair.join(" "))), ...[...added].map(places)];
}

/**
 * Returns the verdict on the enacted groups, in words.
 * @param {Page} page
 * @param {Enacted | null} enacted
 */
export function enactedHtml({ census }, enacted) {
  if (!enacted) return html``;
  const groups = `The groups of ${census.enactedYear}`;
  const { verdict, why } = enacted;
  if (verdict === "best") {
    return verdictHtml(true, `${groups} are among the best here.`, "The program judged them.");
  }
  if (verdict === "lawful") {
    const only = "By the rule a grouping may be used only if it is best.";
    return verdictHtml(false, `${groups} are lawful here, and not best.`, `${why} ${only}`);
  }
  if (verdict === "not lawful") return verdictHtml(false, `${groups} aren’t lawful here.`, why);
  return verdictHtml(false, `${groups} aren’t compared.`, why);
}
