// The second view: checks the certificate that the page carries, in front of the reader.

import { Refusal, comparedFiles } from "./compared_files.mjs";
import { NOTHING, fill, html } from "./html.mjs";
import {
  answerFor, chamberWords, enactedGroupsWords, hashOf, textsFor,
} from "./page.mjs";
import { chamberButtons, find, findInput, stepList, verdictHtml } from "./dom.mjs";
import { peopleOf, placesOf, setKey } from "./geography.mjs";
import { problemWords } from "./problem.mjs";
import {
  carriedFiles, compiledProgram, fileOf, hasProgram, runProgram, storedFile, sumOf,
  whyNoProgram, withFile,
} from "./program.mjs";
import { messageOf, readList, readWhich } from "./program_texts.mjs";
import { shownOption } from "./view_state.mjs";
import { capital, numberText } from "./words.mjs";

/** @typedef {import("./page.mjs").Page} Page */
/** @typedef {import("./answers.mjs").Answer} Answer */
/** @typedef {import("./view_state.mjs").ViewState} ViewState */
/** @typedef {ReturnType<typeof stepList>} Steps */

const PAUSE = 60;
const SHOWN_LINES = 400;
const LONGEST_LINE = 150;

// Another object each time that the view is drawn. What began before writes nothing more.
let drawn = {};

/** A reason to end a check: the view was drawn anew. */
class DrawnAnew extends Error {}

/** Lets the page draw a step before the next one begins. */
function pause() {
  return new Promise((resolve) => setTimeout(resolve, PAUSE));
}

/**
 * Returns a certificate in which one line says something else, with the number of the line and what
 * it says: its last number is one more, and a line without a number is another word.
 * @param {Uint8Array} bytes
 * @param {number} wanted  the number of the line from 1, or 0 for any
 */
function spoiled(bytes, wanted) {
  const lines = new TextDecoder().decode(bytes).split("\n");
  const count = lines.length - 1;
  const at = wanted ? Math.min(wanted, count) - 1 : Math.floor(Math.random() * count);
  const other = lines[at].replace(/(\d+)(\D*)$/, (_, number, rest) => (
    `${String(Number(number) + 1).padStart(number.length, "0")}${rest}`));
  lines[at] = other === lines[at] ? `${other}s` : other;
  return { bytes: new TextEncoder().encode(lines.join("\n")), line: at + 1, text: lines[at] };
}

/** Returns the line that the reader wants to spoil, or 0 for any. */
function wantedLine() {
  return Math.max(0, Math.floor(Number(findInput("#spoil-line").value)) || 0);
}

/**
 * Checks a chamber's certificate step by step, and writes the verdict. Ends early and writes none
 * if the view is drawn anew meanwhile.
 * @param {Page} page
 * @param {ViewState} state
 * @param {boolean} isSpoiled
 */
async function check(page, state, isSpoiled) {
  const answer = answerFor(page, state.chamber);
  const steps = stepList(find("#check-steps"));
  const before = drawn;
  const begin = (/** @type {string} */ text) => {
    if (drawn !== before) throw new DrawnAnew();
    return steps.begin(text);
  };
  fill(find("#check-verdict"), NOTHING);
  for (const id of ["#check", "#spoil"]) findInput(id).disabled = true;
  const verdict = await checked(page, answer, { begin }, isSpoiled).catch(faultVerdict);
  if (drawn !== before) return;
  fill(find("#check-verdict"), verdict);
  for (const id of ["#check", "#spoil"]) findInput(id).disabled = whyNoProgram() !== null;
}

/**
 * Returns the verdict on a check that a fault ended.
 * @param {unknown} fault
 */
function faultVerdict(fault) {
  if (fault instanceof Refusal) return verdictHtml(false, "No.", fault.message);
  const reason = whyNoProgram() ?? String(fault);
  return verdictHtml(false, "The check could not run.", reason);
}

/**
 * Returns the verdict on a chamber's certificate.
 * @param {Page} page
 * @param {Answer} answer
 * @param {Steps} steps
 * @param {boolean} isSpoiled
 */
async function checked(page, answer, steps, isSpoiled) {
  let step = steps.begin("Getting the checker ready");
  await pause();
  await readyProgram(step);
  step = steps.begin("Comparing the sums of the files");
  await pause();
  const files = await comparedFiles(page, answer.key).catch((fault) => {
    step.end(false);
    throw fault;
  });
  step.end(true, `The ${files.size} files have the sums listed below`);
  const certificateKey = `${answer.key}.certificate`;
  let certificate = /** @type {Uint8Array} */ (files.get(certificateKey));
  if (isSpoiled) {
    const { bytes, line, text } = spoiled(certificate, wantedLine());
    certificate = bytes;
    const shown = text.length > 40 ? `${text.slice(0, 40)} …` : text;
    const says = html`<code>${shown}</code>`;
    steps.begin("").end(false, html`Spoiled line ${line}: it now says ${says}`);
  }
  files.delete(certificateKey);
  const blobs = new Map([...files].map(([name, bytes]) => [name, new Blob([bytes])]));
  const all = withFile(blobs, "certificate", certificate);
  return runChecks(page, answer, steps, all, certificate, isSpoiled);
}

/**
 * Compares the program's sum and compiles it.
 * @param {ReturnType<Steps["begin"]>} step
 */
async function readyProgram(step) {
  const { sum, bytes } = fileOf("program") ?? { sum: "", bytes: 0 };
  if (!hasProgram()) throw new Error("no program");
  const module = await storedFile("program").catch(() => null);
  if (!module || await sumOf(module) !== sum) {
    step.end(false);
    throw new Refusal("The program in this page was changed: its sum is another.");
  }
  await compiledProgram();
  step.end(true, `The checker is ready (${(bytes / 1e6).toFixed(1)} MB)`);
}

/**
 * Runs `check` and `list`, and compares the list with the page's data.
 * @param {Page} page
 * @param {Answer} answer
 * @param {Steps} steps
 * @param {import("./program.mjs").Files} files
 * @param {Uint8Array} certificate
 * @param {boolean} isSpoiled
 */
async function runChecks(page, answer, steps, files, certificate, isSpoiled) {
  const lines = certificate.reduce((sum, byte) => sum + (byte === 10 ? 1 : 0), 0);
  const words = [...problemWords(page, answer), "--certificate", "certificate"];
  let step = steps.begin(`Checking ${numberText(lines)} lines, one by one`);
  const start = performance.now();
  const run = await runProgram(["check", ...words], files, (line) => (
    step.tell(line.replace(/^countygroups: /, ""))));
  const seconds = ((performance.now() - start) / 1000).toFixed(2);
  if (run.status !== 0) {
    step.end(false, "Stopped at a line that is wrong");
    const told = messageOf(run.output) || `status ${run.status}`;
    const intact = isSpoiled
      ? " So it does read the lines. The certificate that the page carries is untouched." : "";
    const answered = html`Its answer was <code>${told}</code>.${intact}`;
    return verdictHtml(false, "The checker says no.", html`${faultWords(run.errors)}${answered}`);
  }
  step.end(true, `Checked ${numberText(lines)} lines, one by one`);
  step = steps.begin("Listing every best grouping, and comparing with the map");
  const { listed, which } = await listedWith(page, answer, words, files);
  const isSame = listed.status === 0 && showsTheSame(page, answer, listed.output);
  const enacted = which ? `; ${enactedGroupsWords(page, answer)} are option ${which} of them` : "";
  step.end(isSame, isSame
    ? `The page shows the same ${numberText(answer.number)} groupings that the program lists`
      + enacted
    : "The page shows other groupings than the program lists");
  if (!isSame) {
    return verdictHtml(false, "No.", "The certificate is good, "
      + "and the page’s map shows other groupings than it proves: the page was changed.");
  }
  return goodVerdict(answer, which, isSpoiled, seconds);
}

/**
 * Returns the verdict on a certificate that proves what the page shows, unless the page marks
 * another option as the enacted one than `which`, the program's.
 * @param {Answer} answer
 * @param {number} which
 * @param {boolean} isSpoiled
 * @param {string} seconds  how long the check took
 */
function goodVerdict(answer, which, isSpoiled, seconds) {
  if (which !== answer.enacted) {
    return verdictHtml(false, "No.", "The certificate is good, but the page marks option "
      + `${answer.enacted} as the enacted one, and the program finds ${which || "none"}.`);
  }
  if (isSpoiled) {
    return verdictHtml(true, "The checker takes it.", "The changed line says another thing, "
      + "and the certificate with it still proves the same. Spoil another line.");
  }
  const best = answer.number === 1 ? "the one" : `the ${numberText(answer.number)}`;
  const chamber = chamberWords(answer);
  return verdictHtml(true, "The certificate proves it.", "By these files, "
    + `no lawful grouping of ${chamber} is better than ${best} on this page, `
    + `and no other is as good. Checked in this browser in ${seconds} seconds.`);
}

/**
 * Returns the list of a certificate, and the number that it gives the enacted grouping if the page
 * marks one: 0 if it isn't one of the best.
 * @param {Page} page
 * @param {Answer} answer
 * @param {string[]} words  of the problem and the certificate
 * @param {import("./program.mjs").Files} files
 */
async function listedWith(page, answer, words, files) {
  if (!answer.enacted) return { listed: await runProgram(["list", ...words], files), which: 0 };
  const all = withFile(files, "which", textsFor(page, answer.key).enacted);
  const listed = await runProgram(["list", ...words, "--which", "which"], all);
  if (listed.status === 0) return { listed, which: readWhich(listed.output) };
  return { listed: await runProgram(["list", ...words], files), which: 0 };
}

/**
 * Returns in a sentence which line of the certificate is wrong, and why, or nothing.
 * @param {string} errors  what the program wrote for a person
 */
function faultWords(errors) {
  const found = errors.match(/^countygroups: --certificate \S+, (line \d+: .+)$/m);
  return found ? `${capital(found[1])}. ` : "";
}

/**
 * Returns whether the page has exactly the groups and options of a list, with the same people.
 * @param {Page} page
 * @param {Answer} answer
 * @param {string} text
 */
function showsTheSame(page, answer, text) {
  const { geography } = page;
  const listing = readList(text);
  const words = (/** @type {number} */ least, /** @type {number} */ most,
    /** @type {number} */ people, /** @type {number[]} */ counties) => (
    `${least} ${most} ${people} ${setKey(counties)}`);
  const setsOf = (/** @type {import("./program_texts.mjs").ListedGroup[]} */ groups) => (
    groups.map(({ least, most, people, codes }) => (
      words(least, most, people, placesOf(geography, codes)))).sort().join("|"));
  const known = (/** @type {number[]} */ ids) => ids.map((id) => answer.groups[id]).map((group) => (
    words(group.least, group.most, peopleOf(geography, group.counties), group.counties)))
    .sort().join("|");
  const theirs = listing.regions.map((region) => region.map(setsOf).sort().join("||")).sort();
  const mine = answer.areas.map((area) => area.choices.map(known).sort().join("||")).sort();
  return listing.number === answer.number && listing.people === geography.total
    && setsOf(listing.shared) === known(answer.shared) && theirs.join("|||") === mine.join("|||");
}

/**
 * Draws the view.
 * @param {Page} page
 * @param {ViewState} state
 */
export async function paintProof(page, state) {
  drawn = {};
  const answer = answerFor(page, state.chamber);
  document.title = `Check the proof: county groups of ${page.geography.name}`;
  const buttons = find("#proof-chambers");
  fill(buttons, chamberButtons(page.answers, answer.key));
  buttons.hidden = page.answers.length < 2;
  find("#check").textContent = `Check ${chamberWords(answer)}`;
  fill(find("#check-steps"), NOTHING);
  const reason = whyNoProgram();
  fill(find("#check-verdict"), reason ? html`<p class="note">${reason}</p>` : "");
  for (const id of ["#check", "#spoil"]) findInput(id).disabled = reason !== null;
  fill(find("#what-checked"), whatIsChecked(page, answer));
  fill(find("#by-what"), byWhat(page));
  fill(find("#sums"), sumsTable());
  fill(find("#commands"), commandsHtml(page, answer, shownOption(state, answer.key)));
  fill(find("#run"), runHtml(page, answer));
  if (!reason) compiledProgram().catch(() => null);
  await paintCertificate(answer);
}

/**
 * Returns what is checked, as items of a list.
 * @param {Page} page
 * @param {Answer} answer
 */
function whatIsChecked(page, answer) {
  const counties = page.geography.counties.length
    - answer.taken.reduce((sum, set) => sum + set.counties.length, 0);
  const all = answer.number === 1 ? "The grouping here is the only one."
    : `The ${numberText(answer.number)} groupings here are all there are.`;
  return [
    `Each of the ${counties} counties is in one group, each group is connected, `
      + "and its people suit its seats.",
    `The seats add up to ${answer.seatsLeft}.`,
    "No lawful grouping has more groups of one county; or as many, and more of two; and so on.",
    all,
  ].map((item) => html`<li>${item}</li>`);
}

/**
 * Returns by what it is checked, as items of a list.
 * @param {Page} page
 */
function byWhat(page) {
  const { isProved } = page.data.build;
  const proved = isProved === null
    ? "If its build was proved, it says “best” only of a grouping that is best." : isProved
    ? "It is proved itself: it says “best” only of a grouping that is best."
    : html`
      <b>This copy was built without proof.</b> A proved build says “best” only of a grouping
      that is best.`;
  const sum = fileOf("program")?.sum;
  const copy = sum
    ? html`
      The copy in this page has the sum <code>${sum}</code>. Compare it with the line of <code>
      countygroups.wasm</code> in <code>dist/SHA256SUMS</code>. `
    : "";
  return [
    html`
      By <code>countygroups check</code>, which trusts nothing of the program that found the
      grouping. ${proved}`,
    html`${copy}It was compiled for browsers, and that step is no part of the proof.`,
    html`
      If you’d rather not trust it: <code>tools/check.py</code> is one file of plain Python that
      shares no line with it.`,
  ].map((item) => html`<li>${item}</li>`);
}

/** Returns the table of the files that the page carries. */
function sumsTable() {
  const rows = Object.values(carriedFiles()).map(({ name, bytes, sum }) => (
    html`
      <tr><td>${name}</td><td class="number">${numberText(bytes)}</td><td><code>${sum}</code>
      </td></tr>`));
  return html`
    <table><thead><tr><th>File</th><th class="number">Bytes</th><th>SHA-256</th></tr></thead>
    <tbody>${rows}</tbody></table>`;
}

const PROBLEM_OPTIONS = [
  "--geo", "--segment", "--state", "--chamber", "--part", "--of", "--adjacency", "--links",
  "--withdrawn",
];

/**
 * Returns a word as a shell takes it.
 * @param {string} word
 */
function quoted(word) {
  return /^[\w@%+=:,./-]+$/.test(word) ? word : `'${word.replace(/'/g, "'\\''")}'`;
}

/**
 * Returns the options of a run that name its problem, as words of a command.
 * @param {string[]} words
 */
function problemOf(words) {
  /** @type {string[]} */
  const found = [];
  words.forEach((word, at) => {
    const [option, value] = word.split(/=(.*)/s);
    if (!PROBLEM_OPTIONS.includes(option)) return;
    found.push(`${option} ${quoted(value ?? words[at + 1] ?? "")}`);
  });
  return found.join(" \\\n    ");
}

/**
 * Returns the commands by which anybody checks the answer on their own machine.
 * @param {Page} page
 * @param {Answer} answer
 * @param {number} option
 */
function commandsHtml(page, answer, option) {
  const problem = problemOf(page.records.get(answer.key)?.words ?? []);
  const certificate = `--certificate ${answer.key}.certificate`;
  const grouping = `${answer.key}-option-${option}.grouping`;
  /** @type {[string, string][]} */
  const commands = [
    ["To make a certificate:", `countygroups solve ${problem} \\\n    ${certificate}`],
    ["To check it:", `countygroups check ${problem} \\\n    ${certificate}`],
    ["To check it in plain Python 3:", `python3 tools/check.py ${problem} \\\n    ${certificate}`],
    ["All best groupings, and this page’s option:",
      `countygroups list ${problem} \\\n    ${certificate} --number ${option} --out ${grouping}`],
    ["To judge this option:",
      `countygroups judge ${problem} \\\n    --grouping ${grouping} ${certificate}`],
    ["To compare a plan with it, by the whole Census files with their blocks:",
      `countygroups audit ${problem} \\\n    --grouping ${grouping} --assignments PLAN`],
  ];
  return commands.map(([purpose, command]) => (
    html`<p>${purpose}</p><pre>${command}</pre>`));
}

/**
 * Returns the run that the page was made of.
 * @param {Page} page
 * @param {Answer} answer
 */
function runHtml(page, answer) {
  const record = page.records.get(answer.key);
  if (!record) return "";
  const words = ["countygroups", ...record.words].map(quoted).join(" ");
  const files = [...record.read, ...record.stored].map((file) => (
    html`
      <tr><td>${file.option}</td><td><code>${file.name}</code></td><td class="number">
      ${numberText(file.bytes)}</td><td><code>${file.sum}</code></td></tr>`));
  const { text } = page.data.build;
  const build = text ? html`<p>The build of the program:</p><pre>${text}</pre>` : "";
  return html`
    ${build}<pre>${words}</pre><p>Its answer is <code>${record.answer}</code>. This build said
    so: <code>countygroups ${record.version}</code>.</p><table><thead><tr><th>File</th><th>Name
    </th><th class="number">Bytes</th><th>SHA-256</th></tr></thead><tbody>${files}</tbody>
    </table><p class="note">Compare the files that you have with these by <code>sha256sum FILE
    </code>. An extract of a public file has another sum than the public file.</p>`;
}

/**
 * Shows the first lines of a chamber's certificate.
 * @param {Answer} answer
 */
async function paintCertificate(answer) {
  const key = `${answer.key}.certificate`;
  find("#certificate-fold").hidden = !fileOf(key);
  if (!fileOf(key)) return;
  const before = drawn;
  const bytes = await storedFile(key).catch(() => null);
  if (drawn !== before) return;
  const lines = bytes ? new TextDecoder().decode(bytes).split("\n") : [];
  const targets = lines.filter((line) => /^group \d+ \d/.test(line)).length;
  findInput("#spoil-line").max = String(lines.length - 1);
  find("#certificate-note").textContent = `${numberText(lines.length - 1)} lines. `
    + `After the order of the counties come the ${targets} groups that are to be proved best. `
    + "Then the tree: each branch takes one county and goes through every group it could be in; "
    + "each leaf says why nothing better can come of it.";
  const first = lines.slice(0, SHOWN_LINES).map((line, at) => {
    const text = line.length > LONGEST_LINE ? `${line.slice(0, LONGEST_LINE)} …` : line;
    return `${String(at + 1).padStart(5)}  ${text}`;
  });
  const more = lines.length - SHOWN_LINES - 1;
  const rest = more > 0
    ? `\n    …  ${numberText(more)} more lines; “Download, Certificate” has them all` : "";
  find("#certificate-lines").textContent = first.join("\n") + rest;
}

/**
 * Follows the controls of the view.
 * @param {Page} page
 * @param {ViewState} state
 */
export function followProof(page, state) {
  find("#check").addEventListener("click", () => check(page, state, false));
  find("#spoil").addEventListener("click", () => check(page, state, true));
  find("#proof-chambers").addEventListener("click", (event) => {
    const key = /** @type {HTMLElement} */ (event.target).closest("button")?.dataset.chamber;
    if (key) location.hash = hashOf(page, `proof/${key}`);
  });
}
