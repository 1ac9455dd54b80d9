// The third part of the files: a reader's plan, audited against a grouping.

import { stripSvg } from "./answer_parts.mjs";
import { groupingText, groupsOf } from "./answers.mjs";
import { planOf, planTable } from "./block_plan.mjs";
import { bringIntoView, find, findInput, stepList, verdictHtml } from "./dom.mjs";
import { districtFaults, findingKinds, setsOfDistrict } from "./findings_words.mjs";
import { placesOf } from "./geography.mjs";
import { groupName } from "./group_words.mjs";
import { givenGroupingText } from "./grouping_view.mjs";
import { NOTHING, fill, html } from "./html.mjs";
import { problemWords } from "./problem.mjs";
import {
  carriedProblem, startProgram, wasStopped, whyNoProgram, withFile,
} from "./program.mjs";
import { readDistricts, readFindings, readGrouping, refusalOf } from "./program_texts.mjs";
import { handoutButton, openHandout } from "./handout.mjs";
import { quickHtml } from "./quick_plan.mjs";
import { lastSolved } from "./solve_files.mjs";
import { shownChoices, shownOption } from "./view_state.mjs";
import {
  andList, capital, counted, countedInWords, numberText, signedPercent,
} from "./words.mjs";

/** @typedef {import("./page.mjs").Page} Page */
/** @typedef {import("./answers.mjs").Answer} Answer */
/** @typedef {import("./view_state.mjs").ViewState} ViewState */
/** @typedef {import("./given_files.mjs").Given} Given */
/** @typedef {import("./block_plan.mjs").PlanTable} PlanTable */
/** @typedef {import("./block_plan.mjs").Plan} Plan */
/** @typedef {import("./geography.mjs").Geography} Geography */
/** @typedef {import("./findings_words.mjs").Against} Against */
/** @typedef {import("./program_texts.mjs").Finding} Finding */
/** @typedef {import("./program_texts.mjs").District} District */
/** @typedef {{findings: Finding[], districts: District[]}} Audited */
/**
 * A grouping that a plan can be compared with. `problem` has the program's words of its problem.
 * @typedef {{key: string, words: string, text: string, problem: string[], seats: number,
 *   geography: Geography, tolerance: [number, number]}} Choice
 */

const MANY_DISTRICTS = 1000;
/**
 * What an audit needs, in words.
 * @type {[import("./file_kinds.mjs").FileKind, string][]}
 */
const NEEDED = [
  ["plan", "a block assignment file"], ["geo", "the geographic header"],
  ["segment", "the counts of people"], ["adjacency", "the file of borders"],
];

/** @type {PlanTable | null} */
let table = null;

/**
 * Returns a grouping of a chamber of the page, judged with the links and sets that it carries.
 * @param {Page} page
 * @param {Answer} answer
 * @param {{key: string, words: string, text: string}} named
 * @returns {Choice}
 */
function choiceOf(page, answer, named) {
  const { seats, tolerance } = answer;
  const problem = problemWords(page, answer);
  return { ...named, problem, seats, tolerance, geography: page.geography };
}

/**
 * Returns the groupings that a plan can be compared with.
 * @param {Page} page
 * @param {ViewState} state
 * @returns {Choice[]}
 */
function choicesFor(page, state) {
  const choices = page.answers.map((answer) => {
    const { key, name } = answer;
    const option = answer.options ? `option ${shownOption(state, key)}` : "as it is shown";
    const text = groupingText(page.geography, groupsOf(answer, shownChoices(state, answer)));
    return choiceOf(page, answer, { key, words: `${name}, ${option}`, text });
  });
  for (const answer of page.answers) {
    const text = givenGroupingText(page, answer.seats);
    const words = `Your grouping above, of ${counted(answer.seatsLeft, "seat")}`;
    const total = text ? readGrouping(text).reduce((sum, one) => sum + one.seats, 0) : 0;
    const key = `own-${answer.seats}`;
    if (text && total === answer.seatsLeft) {
      choices.push(choiceOf(page, answer, { key, words, text }));
    }
  }
  const solved = lastSolved();
  if (solved) {
    const { answer, geography, words: problem } = solved;
    const text = groupingText(geography, groupsOf(answer, answer.first));
    const words = `${geography.name}, solved above`;
    const { seats, tolerance } = answer;
    choices.push({ key: "solved", words, text, problem, seats, geography, tolerance });
  }
  return choices;
}

/**
 * Draws the part.
 * @param {Page} page
 * @param {ViewState} state
 * @param {Given} given
 */
export function paintPlan(page, state, given) {
  const select = findInput("#plan-against");
  const before = select.value;
  const choices = choicesFor(page, state);
  fill(select, choices.map(({ key, words }) => (
    html`<option value="${key}">${words}</option>`)));
  if (choices.some((one) => one.key === before)) select.value = before;
  paintAuditButton(given);
}

/**
 * Lets the audit be started once nothing is missing for it, and else says what is.
 * @param {Given} given
 */
function paintAuditButton(given) {
  const reason = whyNoProgram();
  const missing = NEEDED.filter(([kind]) => (kind === "plan" ? !table : !given.has(kind)));
  findInput("#audit").disabled = missing.length > 0 || reason !== null;
  const census = missing.some(([kind]) => kind !== "plan")
    ? " Take the state’s whole Census files, with their blocks, and drop them above." : "";
  find("#audit-needs").textContent = missing.length && !reason
    ? `The audit still needs ${andList(missing.map(([, words]) => words))}.${census}` : "";
}

/**
 * Reads a block assignment file, and offers its columns.
 * @param {Page} page
 * @param {ViewState} state
 * @param {File} file
 * @param {Given} given
 */
export async function takePlan(page, state, file, given) {
  table = null;
  find("#plan-columns").hidden = true;
  const found = await planTable(file);
  table = found;
  find("#plan-zone").classList.add("has-file");
  find("#plan-zone small").textContent = `${file.name}, ${counted(found.rows.length, "line")}`;
  const options = found.header.map((name, at) => (
    html`<option value="${at}">${name || `Column ${at + 1}`}</option>`));
  for (const id of ["#block-column", "#district-column"]) fill(find(id), options);
  findInput("#block-column").value = String(found.block);
  findInput("#district-column").value = String(found.district);
  find("#plan-columns").hidden = false;
  fill(find("#audit-result"), NOTHING);
  paintPlan(page, state, given);
  paintQuick(page);
  const labels = new Set(found.rows.map((row) => row[found.district]));
  for (const noDistrict of ["", "ZZZ"]) labels.delete(noDistrict);
  const likely = choicesFor(page, state).find((one) => one.seats === labels.size);
  if (likely) findInput("#plan-against").value = likely.key;
}

/**
 * Says how the plan goes with all options, by the counties of its blocks.
 * @param {Page} page
 */
function paintQuick(page) {
  const place = find("#quick");
  if (!table) return;
  const chosen = {
    ...table, block: Number(findInput("#block-column").value),
    district: Number(findInput("#district-column").value),
  };
  try {
    fill(place, quickHtml(page, planOf(chosen, page.geography.code)));
  } catch (fault) {
    fill(place, verdictHtml(false, "The plan can’t be read.",
      fault instanceof Error ? fault.message : String(fault)));
  }
}

/**
 * Audits the plan, and shows what was found.
 * @param {Page} page
 * @param {ViewState} state
 * @param {Given} given
 */
async function audit(page, state, given) {
  const result = find("#audit-result");
  const steps = stepList(find("#audit-steps"));
  const choice = choicesFor(page, state).find((one) => (
    one.key === findInput("#plan-against").value));
  fill(result, NOTHING);
  if (!table || !choice) return;
  findInput("#audit").disabled = true;
  try {
    fill(result, [await audited(given, choice, steps), handoutButton("audit")]);
  } catch (fault) {
    const words = wasStopped(fault) ? "It was stopped."
      : fault instanceof Error ? fault.message : String(fault);
    fill(result, verdictHtml(false, "The plan can’t be audited.", words));
  }
  paintAuditButton(given);
  bringIntoView(result);
}

/**
 * Returns what an audit finds, as HTML.
 * @param {Given} given
 * @param {Choice} choice
 * @param {ReturnType<typeof stepList>} steps
 */
async function audited(given, choice, steps) {
  const [geo, segment, adjacency] = /** @type {const} */ (["geo", "segment", "adjacency"]).map(
    (kind) => given.get(kind));
  if (!geo || !segment || !adjacency) {
    throw new Error("Drop the state’s Census files above first: the geographic header and the "
      + "counts with their blocks, and the file of borders.");
  }
  let step = steps.begin("Reading the plan");
  const chosen = {
    .../** @type {PlanTable} */ (table), block: Number(findInput("#block-column").value),
    district: Number(findInput("#district-column").value),
  };
  const plan = planOf(chosen, choice.geography.code);
  if (plan.districts.size > MANY_DISTRICTS) {
    throw new Error(`The column “${chosen.header[chosen.district]}” has ${plan.districts.size} `
      + "different districts: choose the column of districts.");
  }
  step.end(true, `Read ${counted(plan.blocks, "block")} of the plan. ${plan.note}`);
  step = steps.begin("Comparing the plan with the groups");
  const found = await runAudit({ geo, segment, adjacency }, choice, plan, step);
  step.end(true, `Compared ${counted(found.districts.length, "district")}: `
    + counted(found.findings.length, "finding"));
  return foundHtml(choice, found);
}

/**
 * Returns the findings and the districts of the program. Throws a sentence if it refuses a file.
 * The given files stand in the place of those of the page, whose links and sets stay.
 * @param {{geo: File, segment: File, adjacency: File}} census
 * @param {Choice} choice
 * @param {Plan} plan
 * @param {ReturnType<ReturnType<typeof stepList>["begin"]>} step
 * @returns {Promise<Audited>}
 */
async function runAudit(census, choice, plan, step) {
  /** @type {Map<string, Blob>} */
  let files = new Map([...await carriedProblem(), ...Object.entries(census)]);
  files = withFile(files, "grouping", choice.text);
  files = withFile(files, "plan", plan.lines);
  const words = ["audit", ...choice.problem, "--grouping", "grouping", "--assignments", "plan",
    "--districts", "districts"];
  const { result, stop } = await startProgram(words, files, (line) => step.tell(line));
  const button = find("#stop-audit");
  button.hidden = false;
  button.onclick = stop;
  const run = await result.finally(() => {
    button.hidden = true;
  });
  const stored = run.stored.get("districts");
  if (stored && (run.status === 0 || run.status === 1)) {
    const districts = readDistricts(new TextDecoder().decode(stored));
    return { findings: readFindings(run.output), districts };
  }
  step.end(false, "A file was refused");
  if (/NoBlocks/.test(run.output)) {
    throw new Error("The geographic header has no blocks: it is an extract. Take the state’s whole "
      + "files, from the Census Bureau’s zip.");
  }
  throw new Error(refusalOf(run, 3));
}

/**
 * Returns findings by kind, and the table of districts, faults first.
 * @param {Choice} choice
 * @param {Audited} found
 */
function foundHtml(choice, { findings, districts }) {
  const grouping = findings.find((one) => one.kind === "Grouping");
  if (grouping) {
    return verdictHtml(false, "The grouping isn’t lawful.", html`
      So no plan can be compared with it: <code>${grouping.words.join(" ")}</code>`);
  }
  const against = againstOf(choice);
  const kinds = findingKinds(against, findings, districts).map(({ count, name, told }) => (
    html`
      <div class="${count ? "some" : ""}"><b>${numberText(count)}</b>
      ${name}${told ? html`<br><span class="note">${told}</span>` : ""}</div>`));
  const head = findings.length ? `${capital(countedInWords(findings.length, "finding"))}.`
    : "Nothing was found.";
  const more = findings.length ? `The plan was compared with ${choice.words}.`
    : `The plan keeps to the groups of ${choice.words}.`;
  return html`
    ${verdictHtml(!findings.length, head, more)}<div class="kinds">${kinds}</div>
    ${districtTable(choice, against, districts)}<p class="note">The findings are the program’s,
    and so are the people, the groups and the counties of each district. The percentages are
    reckoned by this page, which no proof speaks of.</p>`;
}

/**
 * Returns what is needed to tell of a comparison with a grouping in words.
 * @param {Choice} choice
 * @returns {Against}
 */
function againstOf({ geography, text }) {
  const groups = readGrouping(text).map(({ seats, codes }) => (
    { seats, counties: placesOf(geography, codes) }));
  const countyWords = (/** @type {string} */ code) => {
    const place = geography.placeOf.get(code);
    return place === undefined ? `the county ${code}` : geography.counties[place].name;
  };
  return { geography, groups, countyWords };
}

/**
 * Returns the table of districts, those with faults first.
 * @param {Choice} choice
 * @param {Against} against
 * @param {District[]} districts
 */
function districtTable(choice, against, districts) {
  if (!districts.length) return "";
  const natural = new Intl.Collator("en-US", { numeric: true });
  const ordered = [...districts].sort((one, other) => (
    districtFaults(other).length - districtFaults(one).length
    || natural.compare(one.label, other.label)));
  const rows = ordered.map((district) => districtRow(choice, against, district));
  return html`
    <details class="fold" open><summary>All ${counted(districts.length, "district")}</summary>
    <div class="scrolls"><table class="groups districts"><thead><tr><th class="number">District
    </th><th>Group</th><th class="number">People</th><th class="number">From the ideal (percent)
    </th><td></td><th>Counties</th><th>Finding</th></tr></thead><tbody>${rows}</tbody></table>
    </div></details>`;
}

/**
 * Returns the row of a district.
 * @param {Choice} choice
 * @param {Against} against
 * @param {District} district
 */
function districtRow({ geography, seats, tolerance: [numerator, denominator] }, against, district) {
  const { label, people } = district;
  const off = (people * seats) / geography.total - 1;
  const share = numerator / denominator || 0.0001;
  const faults = districtFaults(district);
  const names = setsOfDistrict(against, district).join("; ");
  const counties = groupName(geography, { counties: placesOf(geography, district.counties) });
  return html`
    <tr><td class="number label"><b>${label}</b></td><td>${names}</td><td class="number people">
    ${numberText(people)}</td><td class="number deviation">${signedPercent(off)}</td><td
    class="strip-cell">${stripSvg(off, share, faults.length > 0)}</td><td class="counties">
    ${counties}</td><td class="fault">${faults.join(", ")}</td></tr>`;
}

/**
 * Opens the sheet of the audit.
 * @param {Page} page
 * @param {Given} given
 */
function openAuditSheet(page, given) {
  const kinds = /** @type {const} */ (["geo", "segment", "adjacency"]);
  const names = kinds.map((kind) => `--${kind} ${given.get(kind)?.name ?? kind.toUpperCase()}`);
  const answer = page.answers.find((one) => one.key === findInput("#plan-against").value);
  const words = [...names, `--chamber ${answer?.seats ?? "SEATS"}`, "--grouping GROUPING",
    "--assignments PLAN"];
  openHandout(page, {
    title: `A plan audited: ${page.geography.name}`, hash: "", shown: ["#quick", "#audit-result"],
    keys: [], further: [], commands: `countygroups audit ${words.join(" \\\n    ")}`,
  });
}

/**
 * Follows the controls of the part.
 * @param {Page} page
 * @param {ViewState} state
 * @param {Given} given
 */
export function followPlan(page, state, given) {
  find("#audit-result").addEventListener("click", (event) => {
    if (/** @type {HTMLElement} */ (event.target).dataset.sheet) openAuditSheet(page, given);
  });
  find("#audit").addEventListener("click", () => audit(page, state, given));
  for (const id of ["#block-column", "#district-column"]) {
    find(id).addEventListener("change", () => paintQuick(page));
  }
  find("#plan-against").addEventListener("focus", () => paintPlan(page, state, given));
}
