// Solves a state by dropped files: reads, solves, checks, lists, and shows map and table.

import { answerOf, groupingText, groupsOf } from "./answers.mjs";
import { groupTableHtml, leadersOf, shownAreas } from "./answer_parts.mjs";
import { find, findInput, saveFile, stepList, verdictHtml } from "./dom.mjs";
import { bordersOf, geographyOf, shortName } from "./geography.mjs";
import { NOTHING, append, fill, html } from "./html.mjs";
import { clearMap, showMap } from "./map_host.mjs";
import { shapesSvg } from "./map_svg.mjs";
import { PROBLEM_FILES, runProgram, startProgram, wasStopped, withFile } from "./program.mjs";
import { readSizes, refusalOf } from "./program_texts.mjs";
import { whyNotTogether } from "./matched_files.mjs";
import { sheetOf } from "./sheet.mjs";
import { hashOf } from "./page.mjs";
import { chamberName, chambersOf, stateName } from "./state_names.mjs";
import { warningsHtml } from "./warnings.mjs";
import { STEPS_RAN_OUT } from "./what_if_parts.mjs";
import { bytesText, counted, numberText } from "./words.mjs";

/** @typedef {import("./page.mjs").Page} Page */
/** @typedef {import("./geography.mjs").Geography} Geography */
/** @typedef {import("./answers.mjs").Answer} Answer */
/** @typedef {import("./given_files.mjs").Given} Given */
/** @typedef {import("./program.mjs").Run} Run */
/**
 * What was solved, for downloads and for the audit.
 * @typedef {{geography: Geography, answer: Answer, certificate: Uint8Array, list: string,
 *   words: string[], errors: string}} Solved
 */

// County names stand near the beginning of a geographic header, before tracts and blocks.
const NAME_BYTES = 1 << 24;

/** @type {Solved | null} */
let solved = null;

/** A reason to end, which the page has told already. */
class Told extends Error {}

/** Returns what was solved last, or null. */
export function lastSolved() {
  return solved;
}

/**
 * Returns the chambers of a state as options of a list.
 * @param {string} code
 */
export function chamberOptions(code) {
  const known = chambersOf(code);
  return html`
    ${known.map(([name, seats]) => html`<option value="${seats}">${name}</option>`)}<option
    value="">${known.length ? "Other" : "Any chamber"}</option>`;
}

/**
 * Returns the names of counties in a geographic header, by their codes.
 * @param {Blob} geo
 * @returns {Promise<Map<string, string>>}
 */
async function countyNames(geo) {
  const text = new TextDecoder().decode(await geo.slice(0, NAME_BYTES).arrayBuffer());
  /** @type {Map<string, string>} */
  const names = new Map();
  for (const line of text.split("\n").filter((one) => one.includes("|050|"))) {
    const fields = line.split("|");
    if (fields[2] === "050") names.set(fields[12] + fields[14], shortName(fields[87] ?? ""));
  }
  return names;
}

/**
 * Returns the text of outlines, or null if there are none.
 * @param {Page} page
 * @param {Given} given
 * @param {string} state
 */
async function outlinesFor(page, given, state) {
  const file = given.get("outlines");
  if (file) return JSON.parse(await file.text());
  return state === page.data.state.code ? page.data.outlines : null;
}

/**
 * Returns the geography of the given files.
 * @param {Page} page
 * @param {Given} given
 * @param {string} state
 * @param {string} sizes  what `size` printed
 * @returns {Promise<Geography>}
 */
async function geographyOfFiles(page, given, state, sizes) {
  const names = await countyNames(/** @type {File} */ (given.get("geo")));
  const counties = readSizes(sizes).map(({ geoid, people }) => (
    { geoid, people, name: names.get(geoid) || geoid }));
  const geography = geographyOf(state, stateName(state), counties);
  const borders = await /** @type {File} */ (given.get("adjacency")).text();
  geography.borders = bordersOf(geography, borders);
  const outlines = await outlinesFor(page, given, state).catch(() => null);
  geography.sheet = outlines ? sheetOrNone(geography, outlines) : null;
  return geography;
}

/**
 * Returns the sheet of outlines, or null if they can't be drawn: if a shape has no area or isn't in
 * degrees.
 * @param {Geography} geography
 * @param {any} outlines
 */
function sheetOrNone(geography, outlines) {
  try {
    return sheetOf(geography, outlines, "f");
  } catch {
    return null;
  }
}

/**
 * Ends a step and the run, and tells why.
 * @param {ReturnType<ReturnType<typeof stepList>["begin"]>} step
 * @param {string} head
 * @param {import("./html.mjs").Part} more
 * @returns {never}
 */
function refuse(step, head, more) {
  step.end(false, head);
  fill(find("#files-result"), verdictHtml(false, head, more));
  throw new Told();
}

/**
 * Runs one step of the program, and tells what it says if it has no answer.
 * @param {string[]} words
 * @param {import("./program.mjs").Files} files
 * @param {ReturnType<ReturnType<typeof stepList>["begin"]>} step
 * @param {string} doing
 * @returns {Promise<Run>}
 */
async function runStep(words, files, step, doing) {
  const { result, stop } = await startProgram(words, files, (line) => (
    step.tell(`${doing}: ${line.replace(/^countygroups: /, "").slice(0, 120)}`)));
  const button = find("#stop-files");
  button.hidden = false;
  button.onclick = stop;
  const run = await result.finally(() => {
    button.hidden = true;
  });
  if (run.status === 0) return run;
  const said = refusalOf(run, 3);
  if (run.status === 3) return refuse(step, "The search wasn’t finished.", STEPS_RAN_OUT);
  if (run.status === 1 && words[0] === "solve") {
    return refuse(step, "No grouping is lawful.", "By these files no way of grouping the counties "
      + "meets the rule. The program proved that, too.");
  }
  const told = said.replace(/countygroups: /g, "");
  return refuse(step, "A file was refused.", html`<code>${told}</code>`);
}

/**
 * Solves the given files, and shows what comes of it.
 * @param {Page} page
 * @param {Given} given
 */
export async function solveGiven(page, given) {
  const steps = stepList(find("#files-steps"));
  for (const id of ["#files-result", "#files-table"]) fill(find(id), NOTHING);
  clearMap(find("#solved-map"));
  findInput("#solve-files").disabled = true;
  try {
    solved = await solvedFiles(page, given, steps);
    showSolved(page, solved, given);
  } catch (fault) {
    if (!(fault instanceof Told)) {
      const words = wasStopped(fault) ? "It was stopped." : `It could not run. ${fault}`;
      fill(find("#files-result"), verdictHtml(false, "Not solved.", words));
    }
  }
  findInput("#solve-files").disabled = false;
}

/** Returns the words that say how many steps the search may take, if they aren't the usual. */
function stepsWords() {
  const most = findInput("#files-steps-most").value;
  return most === "0" ? [] : ["--steps", most];
}

/**
 * Ends the run if the given files don't belong together, and tells why.
 * @param {Given} given
 * @param {string} state
 * @param {ReturnType<ReturnType<typeof stepList>["begin"]>} step
 */
async function refuseStrangers(given, state, step) {
  const apart = await whyNotTogether(given, state);
  if (apart) refuse(step, "These files don’t belong together.", `${apart} Nothing was solved.`);
}

/**
 * Reads, solves, checks and lists the given files.
 * @param {Page} page
 * @param {Given} given
 * @param {ReturnType<typeof stepList>} steps
 * @returns {Promise<Solved>}
 */
async function solvedFiles(page, given, steps) {
  const [state, seats] = [findInput("#state").value, findInput("#seats").value];
  const chamber = ["--chamber", seats, "--state", String(Number(state))];
  const words = [...PROBLEM_FILES, ...chamber];
  const files = /** @type {Map<string, Blob>} */ (new Map(given));
  const bytes = [...given.values()].reduce((sum, file) => sum + file.size, 0);
  let step = steps.begin(`Reading ${bytesText(bytes)}`);
  await refuseStrangers(given, state, step);
  const counts = ["size", ...PROBLEM_FILES.slice(0, 4), ...chamber];
  const sized = await runStep(counts, files, step, "Reading");
  const geography = await geographyOfFiles(page, given, state, sized.output);
  step.end(true, `Read ${counted(geography.counties.length, "county", "counties")} with `
    + `${numberText(geography.total)} people`);
  step = steps.begin("Solving");
  const solving = ["solve", ...words, "--certificate", "certificate", ...stepsWords()];
  const run = await runStep(solving, files, step, "Solving");
  step.end(true, "Solved");
  const certificate = run.stored.get("certificate") ?? new Uint8Array(0);
  const all = withFile(files, "certificate", certificate);
  step = steps.begin("Checking the certificate");
  const proof = ["--certificate", "certificate"];
  const checked = await runStep(["check", ...words, ...proof], all, step, "Checking");
  if (checked.output !== run.output) {
    refuse(step, "The check says otherwise.", "It read the certificate of this answer, "
      + "and its own answer is another one. Nothing is shown.");
  }
  step.end(true, "The certificate is checked");
  step = steps.begin("Listing every best grouping");
  const listed = await runProgram(["list", ...words, ...proof], all);
  step.end(listed.status === 0, listed.status === 0 ? "Listed every best grouping"
    : "The certificate doesn’t show which other groupings are best");
  if (listed.status !== 0) throw new Error("the list stayed open");
  const key = `${state}-${seats}`;
  const name = chamberName(state, Number(seats));
  const answer = answerOf(geography, { key, name, list: listed.output });
  const { errors } = run;
  return { geography, answer, certificate, list: listed.output, words, errors };
}

/**
 * Shows map, table and downloads of what was solved.
 * @param {Page} page
 * @param {Solved} found
 * @param {Given} given
 */
function showSolved(page, { geography, answer, errors }, given) {
  const groups = groupsOf(answer, answer.first);
  const own = geography.code === page.data.state.code
    ? page.answers.find((one) => one.seats === answer.seats) : undefined;
  const link = own ? html` <a href="${hashOf(page, own.key)}">See the answer of this page</a>` : "";
  const head = `${counted(answer.number, "best grouping")}, checked for these files.`;
  const store = ["certificate", "grouping", "list"].map((kind) => (
    html`<button type="button" class="btn quiet" data-store="${kind}">Store the ${kind}</button>`));
  const told = html`
    ${groups.length} groups; ${answer.shared.length} of them are in every best grouping.${link}`;
  fill(find("#files-result"), [
    verdictHtml(true, head, told), warningsHtml(errors), html`<div class="row">${store}</div>`]);
  if (geography.sheet) {
    document.querySelector("#given-shapes")?.remove();
    append(document.body, html`<div id="given-shapes">${shapesSvg(geography.sheet)}</div>`);
    showMap(find("#solved-map"), {
      geography, chamber: answer.seats,
      drawing: { groups, areas: shownAreas(answer, answer.first), leaders: leadersOf(answer) },
    });
  }
  const note = geography.sheet ? "" : given.has("outlines")
    ? html`
      <p class="note">The outlines can’t be drawn: a shape for each county of this state is wanted,
      with its area, in longitude and latitude. So here is the table.</p>`
    : html`<p class="note">No outlines of this state were dropped, so here is the table.</p>`;
  fill(find("#files-table"), [note, groupTableHtml(geography, answer, groups, null, true)]);
}

/**
 * Stores what was solved.
 * @param {string} kind
 */
export function solvedAs(kind) {
  if (!solved) return;
  const { geography, answer, certificate, list } = solved;
  const grouping = groupingText(geography, groupsOf(answer, answer.first));
  const data = kind === "certificate" ? certificate : kind === "list" ? list : grouping;
  saveFile(`${answer.key}.${kind}`, data, "text/plain");
}
