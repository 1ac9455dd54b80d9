// The page's script: reads the page's data, and shows the view that the address names.

import { readAddress, yearOf } from "./addresses.mjs";
import { followAnswer, paintAnswer, showOption } from "./answer_view.mjs";
import { followCounty, paintCounty } from "./county_view.mjs";
import { answerFor, censusYears, hashOf, pageOf, showCensus } from "./page.mjs";
import { find, findAll } from "./dom.mjs";
import { followDownloads } from "./downloads.mjs";
import { followFiles, paintFiles } from "./files_view.mjs";
import { followHandout } from "./handout.mjs";
import { append, fill, html } from "./html.mjs";
import { pinnedIn, pin, showAgain } from "./map_host.mjs";
import { shapesSvg } from "./map_svg.mjs";
import { hasProgram, useCensusFiles } from "./program.mjs";
import { followProof, paintProof } from "./proof_view.mjs";
import { firstState, shownOption, useOptions } from "./view_state.mjs";
import { followWhatIf, forgetWhatIf, openWhatIf, whatIfPath } from "./what_if_view.mjs";

/** @typedef {import("./page.mjs").Page} Page */
/** @typedef {import("./addresses.mjs").Address} Address */
/** @typedef {import("./view_state.mjs").ViewState} ViewState */
/** @typedef {import("./view_state.mjs").ViewName} ViewName */

/** @type {ViewName[]} */
const VIEWS = ["answer", "proof", "whatif", "files"];

/**
 * Shows what the address names. If it can't be read, a sentence says why, and nothing else is
 * shown.
 * @param {Page} page
 * @param {ViewState} state
 */
function route(page, state) {
  const { year } = yearOf(page, location.hash.slice(1).split("/"));
  const isOther = year !== page.census.year;
  if (isOther) turnToCensus(page, state, year);
  const address = readAddress(page, location.hash);
  find("#unreadable").hidden = !address.fault;
  if (address.fault) {
    tellUnreadable(page, address.fault);
    return;
  }
  document.body.classList.toggle("embedded", address.isEmbedded);
  const before = { view: state.view, chamber: state.chamber, county: state.county };
  state.view = address.view;
  if (address.chamber) state.chamber = address.chamber;
  state.county = address.county ? page.geography.placeOf.get(address.county) ?? null : null;
  const isSame = before.view === "answer" && before.chamber === state.chamber && !isOther
    && document.body.classList.contains("drawn") && !address.county && before.county === null
    && !find("#answer").hidden;
  if (address.option && isSame) showOption(page, state, address.option);
  else if (address.option) state.option.set(address.chamber, address.option);
  const isOption = address.view === "answer" && address.chamber !== "" && !address.county;
  if (isOption && !address.isEmbedded) nameOption(page, state);
  if (!address.option || !isSame) showView(page, state, address);
  if (isOption && address.query === "close") find("#close").focus();
}

/**
 * Has the address name the option that is shown, without a further step to go back.
 * @param {Page} page
 * @param {ViewState} state
 */
function nameOption(page, state) {
  const path = `${state.chamber}/${shownOption(state, state.chamber)}`;
  history.replaceState(null, "", hashOf(page, path));
}

/**
 * Turns to another census of the page.
 * @param {Page} page
 * @param {ViewState} state
 * @param {number} year
 */
function turnToCensus(page, state, year) {
  showCensus(page, year);
  useCensusFiles(year === (page.data.year ?? 0) ? 0 : year);
  useOptions(page, state);
  state.county = null;
  forgetWhatIf();
  paintCensuses(page);
}

/**
 * Says why an address can't be read.
 * @param {Page} page
 * @param {string} fault
 */
function tellUnreadable(page, fault) {
  for (const name of VIEWS) find(`#${name}`).hidden = true;
  document.title = "This link can’t be read";
  fill(find("#unreadable"), html`
    <h1>This link can’t be read</h1><p class="lead">${fault} Nothing was answered.</p>
    <p><a href="${hashOf(page, page.answers[0].key)}">See the answer of this page</a></p>`);
}

/**
 * Shows a view and hides the others.
 * @param {Page} page
 * @param {ViewState} state
 * @param {Address} address
 */
function showView(page, state, { query }) {
  const { view, chamber } = state;
  for (const name of VIEWS) find(`#${name}`).hidden = name !== view;
  for (const link of findAll("nav [data-view]")) {
    if (link.dataset.view === view) link.setAttribute("aria-current", "page");
    else link.removeAttribute("aria-current");
  }
  nameLinks(page, state);
  if (view === "answer") {
    paintAnswer(page, state);
    paintCounty(page, state, query);
  }
  if (view === "proof") paintProof(page, state);
  if (view === "whatif") openWhatIf(page, state, query);
  if (view === "files") paintFiles(page, state);
  const option = `${chamber}/${shownOption(state, chamber)}`;
  find(".embed-link").setAttribute("href", hashOf(page, option));
  document.body.classList.add("drawn");
}

/**
 * Has the links of the head name the census and the chamber that are shown, and the last what-if.
 * @param {Page} page
 * @param {ViewState} state
 */
function nameLinks(page, state) {
  const { chamber } = state;
  /** @type {Record<string, string>} */
  const paths = {
    answer: `${chamber}/${shownOption(state, chamber)}`, proof: `proof/${chamber}`,
    whatif: whatIfPath(chamber), files: "files",
  };
  for (const link of findAll("[data-view]")) {
    link.setAttribute("href", hashOf(page, paths[link.dataset.view ?? "answer"]));
  }
}

/**
 * Draws the switch of the censuses.
 * @param {Page} page
 */
function paintCensuses(page) {
  const years = censusYears(page);
  find("#censuses").hidden = years.length < 2;
  fill(find("#censuses"), years.map((year) => html`
    <button type="button" data-year="${year}" aria-pressed="${year === page.census.year}">${year}
    </button>`));
  find(".foot").classList.toggle("of-other", page.census.year !== (page.data.year ?? 0));
}

/**
 * Draws the maps again where the window's width changes, and wide for print.
 * @param {Page} page
 * @param {ViewState} state
 */
function followWindow(page, state) {
  let width = innerWidth;
  let timer = 0;
  addEventListener("resize", () => {
    if (innerWidth === width) return;
    width = innerWidth;
    clearTimeout(timer);
    timer = window.setTimeout(() => drawAgain(page, state), 150);
  });
  const fold = /** @type {HTMLDetailsElement} */ (find("#table-fold"));
  if (innerWidth < 700) fold.open = false;
  addEventListener("beforeprint", () => {
    if (state.view !== "answer") return;
    state.isPrinted = true;
    fold.open = true;
    for (const more of findAll("#county-more:not([open]), #close details:not([open])")) {
      more.dataset.closed = "true";
      more.setAttribute("open", "");
    }
    paintAnswer(page, state);
    // (Firefox prints shapes only if they were laid out after they were drawn)
    find("#map").getBoundingClientRect();
  });
  addEventListener("afterprint", () => {
    state.isPrinted = false;
    for (const more of findAll("details[data-closed]")) {
      more.removeAttribute("open");
      delete more.dataset.closed;
    }
    if (state.view === "answer") paintAnswer(page, state);
  });
}

/**
 * Draws the maps again for another width.
 * @param {Page} page
 * @param {ViewState} state
 */
function drawAgain(page, state) {
  const pinned = pinnedIn(find("#map"));
  if (state.view === "answer") paintAnswer(page, state);
  if (state.view === "answer" && pinned !== null) pin(find("#map"), pinned);
  for (const id of ["#whatif-map", "#solved-map", "#judged-map"]) showAgain(find(id));
}

/** Has the link to the main part move the focus alone, since a mark of the address names a view. */
function followSkip() {
  find(".skip").addEventListener("click", (event) => {
    event.preventDefault();
    find("#main").focus();
  });
}

/**
 * Follows the switch of the censuses: it goes to the same chamber of another one.
 * @param {Page} page
 * @param {ViewState} state
 */
function followCensuses(page, state) {
  find("#censuses").addEventListener("click", (event) => {
    const button = /** @type {HTMLElement} */ (event.target).closest("button");
    const year = button?.dataset.year;
    if (!year || Number(year) === page.census.year) return;
    const isFirst = Number(year) === (page.data.year ?? 0);
    const chamber = answerFor(page, state.chamber).key;
    const path = state.view === "answer" ? chamber : `${state.view}/${chamber}`;
    location.hash = isFirst ? `#${path}` : `#${year}/${path}`;
  });
}

/** Begins: reads the data and follows every control. */
function begin() {
  const data = JSON.parse(find("#data").textContent ?? "{}");
  const page = pageOf(data, "c");
  const state = firstState(page);
  if (page.geography.sheet) {
    document.querySelector("svg.shapes")?.remove();
    append(document.body, shapesSvg(page.geography.sheet));
  }
  find("#figure").hidden = !page.geography.sheet;
  find(".brand span").textContent = page.geography.name;
  for (const link of findAll("nav .needs-program")) link.hidden = !hasProgram();
  followSkip();
  paintCensuses(page);
  followCensuses(page, state);
  followAnswer(page, state);
  followCounty(page, state);
  followDownloads(page, state);
  followProof(page, state);
  followWhatIf(page, state);
  followFiles(page, state);
  followWindow(page, state);
  followHandout();
  addEventListener("hashchange", () => route(page, state));
  route(page, state);
}

begin();
