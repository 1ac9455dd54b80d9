// The second part of the files: a reader's grouping, judged by the program.

import { leadersOf, shownAreas } from "./answer_parts.mjs";
import { choicesOf, groupingText, groupsOf, optionOfSets } from "./answers.mjs";
import { NOTHING, append, fill, html } from "./html.mjs";
import { answerFor, chamberWords, hashOf } from "./page.mjs";
import { chamberButtons, find, findInput, verdictHtml } from "./dom.mjs";
import { byPeople, codesOf, setKey } from "./geography.mjs";
import { problemText } from "./commands.mjs";
import { faultWords } from "./fault_words.mjs";
import { handoutButton, openHandout } from "./handout.mjs";
import { readGivenGrouping } from "./grouping_input.mjs";
import { clearMap, showMap } from "./map_host.mjs";
import { carriedProblem, runProgram, storedFile, whyNoProgram, withFile } from "./program.mjs";
import { isLawful, messageOf, readReport, refusalOf } from "./program_texts.mjs";
import { problemWords } from "./problem.mjs";
import { decodedText } from "./tables.mjs";
import { tintLike } from "./tints.mjs";
import { differingSize } from "./what_if.mjs";
import { andList, nounFor, numberWord } from "./words.mjs";

/** @typedef {import("./page.mjs").Page} Page */
/** @typedef {import("./answers.mjs").Answer} Answer */
/** @typedef {import("./geography.mjs").Group} Group */
/** @typedef {import("./grouping_input.mjs").GivenGrouping} GivenGrouping */
/** @typedef {import("./view_state.mjs").ViewState} ViewState */

/**
 * Draws the buttons of the part.
 * @param {Page} page
 * @param {ViewState} state
 */
export function paintGrouping(page, state) {
  const answer = answerFor(page, state.chamber);
  const chambers = find("#judge-chambers");
  fill(chambers, chamberButtons(page.answers, answer.key));
  chambers.hidden = page.answers.length < 2;
  find("#example-enacted").hidden = !answer.enacted;
  find("#example-mistake").hidden = !answer.enacted;
  findInput("#judge").disabled = whyNoProgram() !== null;
}

/**
 * Returns groups as lines with names.
 * @param {Page} page
 * @param {{seats: number, counties: number[]}[]} groups
 */
function namedLines(page, groups) {
  const { counties } = page.geography;
  return groups.map((group) => (
    `${group.seats}  ${group.counties.map((one) => counties[one].name).join(", ")}`)).join("\n");
}

/**
 * Fills in the groups of the enacted plan, or the same with a county in another group.
 * @param {Page} page
 * @param {ViewState} state
 * @param {boolean} hasMistake
 */
function fillExample(page, state, hasMistake) {
  const answer = answerFor(page, state.chamber);
  const groups = groupsOf(answer, choicesOf(answer, answer.enacted)).map((group) => (
    { seats: group.seats, counties: [...group.counties] }));
  const two = groups.filter((group) => group.counties.length === 2);
  const from = groups.find((group) => group.counties.length > 3);
  const moved = from?.counties.pop();
  const into = two.find((group) => moved !== undefined && page.geography.borders.some((pair) => (
    pair.includes(moved) && group.counties.some((county) => pair.includes(county)))));
  if (hasMistake && moved !== undefined) (into ?? two[0]).counties.push(moved);
  else if (moved !== undefined) from?.counties.push(moved);
  findInput("#grouping-text").value = namedLines(page, groups);
}

/**
 * Returns a verdict on a fault of the grouping, and the group that it names.
 * @param {Page} page
 * @param {Answer} answer
 * @param {GivenGrouping} given
 * @param {string} output
 */
function faultOf(page, answer, given, output) {
  const { told, group } = faultWords(page.geography, answer, given.groups, output);
  const note = html`<span class="note">This is the first fault; there may be more.</span>`;
  return { verdict: verdictHtml(false, "Not lawful.", html`${told} ${note}`), group };
}

/**
 * Returns the given groups as a map has them, in the tints of the answer.
 * @param {Page} page
 * @param {Answer} answer
 * @param {GivenGrouping} given
 * @returns {Group[]}
 */
function mapGroups({ geography }, answer, given) {
  const groups = given.groups.map(({ seats, counties }, id) => (
    { id, seats, counties: byPeople(geography, counties), area: -1, choice: -1, tint: 0 }));
  tintLike(geography, answer.groups, groups);
  return groups;
}

/**
 * Shows given groups on the map, some of them outlined.
 * @param {Page} page
 * @param {Answer} answer
 * @param {Group[]} groups
 * @param {number[]} outlined
 */
function showGroups(page, answer, groups, outlined) {
  const areas = outlined.length
    ? [{ number: 0, name: "", counties: outlined, choice: 0, choices: 0 }] : [];
  showMap(find("#judged-map"), {
    geography: page.geography, chamber: answer.seats, drawing: { groups, areas },
  });
}

/**
 * Says that a grouping is best, and which option it is if the options are numbered.
 * @param {Page} page
 * @param {Answer} answer
 * @param {GivenGrouping} given
 */
function showBest(page, answer, given) {
  const sets = given.groups.map((group) => codesOf(page.geography, group.counties));
  const option = optionOfSets(page.geography, answer, sets);
  if (!option) {
    fill(find("#judge-result"), verdictHtml(
      true, "Lawful, and best.", "It is one of the best groupings."));
    showGroups(page, answer, mapGroups(page, answer, given), []);
    return;
  }
  const choices = choicesOf(answer, option);
  const enacted = answer.enacted ? choicesOf(answer, answer.enacted) : choices;
  const other = answer.areas.filter((_, area) => choices[area] !== enacted[area]);
  const year = page.census.enactedYear;
  const differs = option === answer.enacted ? `, the one used for the plan enacted in ${year}.`
    : !answer.enacted ? "." : `. It differs from the ${year} plan in the `
      + `${andList(other.map((area) => area.name))}.`;
  const link = html`
    <a href="${hashOf(page, `${answer.key}/${option}`)}">See it on the map</a>`;
  fill(find("#judge-result"), verdictHtml(true, "Lawful, and best.",
    html`It is option ${option} of ${answer.number}${differs} ${link}`));
  const groups = groupsOf(answer, choices);
  showMap(find("#judged-map"), {
    geography: page.geography, chamber: answer.seats,
    drawing: { groups, areas: shownAreas(answer, choices), leaders: leadersOf(answer) },
  });
}

/**
 * Says at which size a lawful grouping falls short of a best one.
 * @param {Page} page
 * @param {Answer} answer
 * @param {GivenGrouping} given
 * @param {number[]} counts
 */
function showLesser(page, answer, given, counts) {
  const size = differingSize(answer.counts, counts);
  const [best, mine] = [answer.counts[size - 1] ?? 0, counts[size - 1] ?? 0];
  const noun = nounFor(mine, "group");
  fill(find("#judge-result"), verdictHtml(false, "Lawful, but not best.",
    `It has ${numberWord(mine)} ${noun} of ${numberWord(size)} `
    + `${nounFor(size, "county", "counties")}; a best grouping has ${numberWord(best)}. `
    + "By the rule a grouping may be used only if it is best. "
    + "Outlined: groups that no best grouping has."));
  const known = new Set(answer.groups.map((group) => setKey(group.counties)));
  const groups = mapGroups(page, answer, given);
  const fresh = groups.filter((group) => !known.has(setKey(group.counties)));
  showGroups(page, answer, groups, fresh.flatMap((group) => group.counties));
}

/**
 * Returns of which other chamber a grouping is by its seats, in a sentence, or nothing.
 * @param {Page} page
 * @param {Answer} answer
 * @param {GivenGrouping} given
 */
function otherChamber({ answers }, answer, given) {
  const seats = given.groups.reduce((sum, group) => sum + group.seats, 0);
  const other = answers.find((one) => one !== answer && one.seatsLeft === seats);
  if (seats === answer.seatsLeft || !other) return null;
  return html`
    Its groups have ${seats} seats, as many as ${chamberWords(other)} has. Choose
    ${chamberWords(other)} above, and judge it again.`;
}

/**
 * Judges the grouping of the box. Nothing is shown if the reader chose another chamber meanwhile.
 * @param {Page} page
 * @param {ViewState} state
 */
async function judge(page, state) {
  const answer = answerFor(page, state.chamber);
  const result = find("#judge-result");
  clearMap(find("#judged-map"));
  try {
    const text = findInput("#grouping-text").value;
    const given = readGivenGrouping(page.geography, text, answer.seats);
    const other = otherChamber(page, answer, given);
    if (other) {
      fill(result, verdictHtml(false, "This is a grouping of another chamber.", other));
      return;
    }
    fill(result, html`<p class="note">Judging.</p>`);
    const problem = await carriedProblem();
    const lines = given.groups.map(({ seats, counties }) => (
      `${[seats, ...counties.map((one) => page.geography.counties[one].geoid)].join("|")}\n`));
    const certificate = await storedFile(`${answer.key}.certificate`);
    const grouped = withFile(problem, "grouping", lines.join(""));
    const files = withFile(grouped, "certificate", certificate);
    const words = [...problemWords(page, answer), "--grouping", "grouping"];
    const run = await runProgram(["judge", ...words, "--certificate", "certificate"], files);
    if (state.chamber !== answer.key) return;
    showVerdict(page, answer, given, run);
    append(result, handoutButton("judge"));
    if (given.note) append(result, html`<p class="note">${given.note}</p>`);
  } catch (fault) {
    const words = whyNoProgram() ?? (fault instanceof Error ? fault.message : String(fault));
    fill(result, verdictHtml(false, "It can’t be judged.", words));
  }
}

/**
 * Shows what the program says of a grouping.
 * @param {Page} page
 * @param {Answer} answer
 * @param {GivenGrouping} given
 * @param {import("./program.mjs").Run} run
 */
function showVerdict(page, answer, given, run) {
  const report = readReport(run.output);
  if (report.answer === "best") showBest(page, answer, given);
  else if (isLawful(report)) showLesser(page, answer, given, report.counts);
  else if (run.status === 1) {
    const { verdict, group } = faultOf(page, answer, given, messageOf(run.output));
    fill(find("#judge-result"), verdict);
    if (group) showGroups(page, answer, mapGroups(page, answer, given), group.counties);
  } else {
    fill(find("#judge-result"), verdictHtml(
      false, "The program refused it.", html`<code>${refusalOf(run, 2)}</code>`));
  }
}

/**
 * Puts the text of a file into the box.
 * @param {File} file
 */
export async function takeGrouping(file) {
  const text = decodedText(new Uint8Array(await file.arrayBuffer()));
  findInput("#grouping-text").value = text.trim();
}

/**
 * Returns the grouping of the box as the program reads it, or null if there is none that can be
 * read.
 * @param {Page} page
 * @param {number} chamber
 */
export function givenGroupingText(page, chamber) {
  const text = findInput("#grouping-text").value;
  if (!text.trim()) return null;
  try {
    return groupingText(page.geography, readGivenGrouping(page.geography, text, chamber).groups);
  } catch {
    return null;
  }
}

/**
 * Follows the controls of the part.
 * @param {Page} page
 * @param {ViewState} state
 */
export function followGrouping(page, state) {
  find("#judge-result").addEventListener("click", (event) => {
    if (!/** @type {HTMLElement} */ (event.target).dataset.sheet) return;
    const answer = answerFor(page, state.chamber);
    const problem = problemText(page, answer);
    const words = `--grouping GROUPING --certificate ${answer.key}.certificate`;
    openHandout(page, {
      title: `A grouping judged: ${page.geography.name} ${answer.name}`, hash: "",
      shown: ["#judge-result", "#judged-map"], further: [],
      keys: ["geo", "segment", "adjacency", `${answer.key}.certificate`],
      commands: `countygroups judge ${problem} \\\n    ${words}`,
    });
  });
  find("#judge").addEventListener("click", () => judge(page, state));
  find("#example-enacted").addEventListener("click", () => fillExample(page, state, false));
  find("#example-mistake").addEventListener("click", () => fillExample(page, state, true));
  find("#judge-chambers").addEventListener("click", (event) => {
    const key = /** @type {HTMLElement} */ (event.target).closest("button")?.dataset.chamber;
    if (!key) return;
    state.chamber = key;
    fill(find("#judge-result"), NOTHING);
    clearMap(find("#judged-map"));
    paintGrouping(page, state);
  });
}
