// The files that a reader gave: which slot each fills, also out of archives.

import { recognizedFile } from "./file_kinds.mjs";
import { gunzippedFile, unzippedFile, zipEntries } from "./zip.mjs";

/** @typedef {import("./file_kinds.mjs").FileKind} FileKind */
/** @typedef {Map<FileKind, File>} Given */
/** @typedef {{kind: FileKind, file: File}} Placed */

/** What each file is called in sentences. */
export const KIND_WORDS = new Map([
  ["geo", "the geographic header"], ["segment", "the counts"], ["adjacency", "the file of borders"],
  ["outlines", "outlines"], ["grouping", "a grouping"], ["plan", "a block assignment file"],
]);

// Entries of an archive that are never wanted: further segments, pictures, descriptions.
const SKIPPED = /\.(pdf|docx?|txt\.md|html?|xml|prj|shx|cpg|sbn|sbx)$|^__MACOSX|\/\./i;

/**
 * Returns the files that a dropped file gives, and what is wrong with it: itself, or those of an
 * archive that are recognized.
 * @param {File} file
 * @returns {Promise<{placed: Placed[], problem: string}>}
 */
export async function placedFiles(file) {
  const { kind, problem } = await recognizedFile(file);
  if (kind === "gzip") return placedFiles(await gunzippedFile(file));
  if (kind === "zip") return filesOfArchive(file);
  if (!kind) return { placed: [], problem: `${file.name}: ${problem}` };
  return { placed: [{ kind, file }], problem: "" };
}

/**
 * Returns the files of an archive that are recognized.
 * @param {File} archive
 */
async function filesOfArchive(archive) {
  const entries = await zipEntries(archive);
  if (entries.some((entry) => entry.name.startsWith("xl/"))) {
    const problem = "This is an Excel workbook. Save the sheet as CSV, and drop that.";
    return { placed: [], problem: `${archive.name}: ${problem}` };
  }
  /** @type {Placed[]} */
  const placed = [];
  let told = "";
  for (const entry of entries.filter((one) => !SKIPPED.test(one.name))) {
    // Of a state's archive the segments behind the first are the largest, and never wanted.
    if (/0000[23]2020\.pl$/i.test(entry.name)) continue;
    const file = await unzippedFile(archive, entry);
    const { kind, problem } = await recognizedFile(file);
    if (kind && kind !== "zip" && kind !== "gzip") placed.push({ kind, file });
    else told ||= problem;
  }
  const nothing = `${archive.name}: no file of the archive can be used here. ${told}`;
  return { placed, problem: placed.length ? "" : nothing };
}
