// Reads zip archives: which files they have, and the bytes of one. The browser's own decompression
// does the work, and an archive of any size is read where it lies.

/** @typedef {{name: string, size: number, packed: number, method: number, at: number}} ZipEntry */

const END_MARK = 0x06054b50;
const ENTRY_MARK = 0x02014b50;
const LONGEST_END = 65557;
// An archive of more files, and a file of more bytes, isn't unpacked here.
const MOST_ENTRIES = 1000;
const MOST_BYTES = 2e9;
const STORED = 0;
const DEFLATED = 8;

/**
 * Returns a part of a blob as a view of its bytes.
 * @param {Blob} blob
 * @param {number} from
 * @param {number} to
 */
async function viewOf(blob, from, to) {
  return new DataView(await blob.slice(from, to).arrayBuffer());
}

/**
 * Returns the entries of an archive. Rejects with a sentence if it can't be read.
 * @param {Blob} archive
 * @returns {Promise<ZipEntry[]>}
 */
export async function zipEntries(archive) {
  const from = Math.max(0, archive.size - LONGEST_END);
  const tail = await viewOf(archive, from, archive.size);
  let at = tail.byteLength - 22;
  while (at >= 0 && tail.getUint32(at, true) !== END_MARK) at -= 1;
  if (at < 0) throw new Error("The zip archive has no end: it was cut short on its way.");
  const count = tail.getUint16(at + 10, true);
  const [size, start] = [tail.getUint32(at + 12, true), tail.getUint32(at + 16, true)];
  if (start === 0xffffffff || count === 0xffff) {
    throw new Error("The zip archive is one of more than 4 GB: unpack it first.");
  }
  const list = await viewOf(archive, start, start + size);
  /** @type {ZipEntry[]} */
  const entries = [];
  let place = 0;
  while (entries.length < count && list.getUint32(place, true) === ENTRY_MARK) {
    const nameLength = list.getUint16(place + 28, true);
    const bytes = new Uint8Array(list.buffer, place + 46, nameLength);
    entries.push({
      name: new TextDecoder().decode(bytes), method: list.getUint16(place + 10, true),
      packed: list.getUint32(place + 20, true), size: list.getUint32(place + 24, true),
      at: list.getUint32(place + 42, true),
    });
    place += 46 + nameLength + list.getUint16(place + 30, true) + list.getUint16(place + 32, true);
  }
  const whole = entries.filter((entry) => entry.size > 0);
  if (whole.length > MOST_ENTRIES) {
    throw new Error(`The zip archive has ${whole.length.toLocaleString("en-US")} files: unpack it, `
      + "and take those that are wanted.");
  }
  return whole;
}

/**
 * Returns the bytes of an entry as a file with its name. Rejects with a sentence if it can't be
 * unpacked here.
 * @param {Blob} archive
 * @param {ZipEntry} entry
 * @returns {Promise<File>}
 */
export async function unzippedFile(archive, entry) {
  const head = await viewOf(archive, entry.at, entry.at + 30);
  const from = entry.at + 30 + head.getUint16(26, true) + head.getUint16(28, true);
  const packed = archive.slice(from, from + entry.packed);
  const name = entry.name.replace(/^.*\//, "");
  if (entry.method === STORED) return new File([packed], name);
  if (entry.method !== DEFLATED) {
    throw new Error(`${name} is packed in a way that isn’t read here.`);
  }
  if (entry.size > MOST_BYTES) {
    throw new Error(`${name} has ${(entry.size / 1e9).toFixed(1)} GB, which is too much to unpack `
      + "here: unpack it, and take the file.");
  }
  const stream = packed.stream().pipeThrough(new DecompressionStream("deflate-raw"));
  const bytes = await new Response(stream).blob().catch(() => null);
  if (bytes?.size !== entry.size) {
    throw new Error(`${name} can’t be unpacked: the archive is damaged.`);
  }
  return new File([/** @type {Blob} */ (bytes)], name);
}

/**
 * Returns the bytes of a gzip file under its name without ".gz".
 * @param {File} file
 */
export async function gunzippedFile(file) {
  const stream = file.stream().pipeThrough(new DecompressionStream("gzip"));
  const bytes = await new Response(stream).blob().catch(() => null);
  if (!bytes) {
    throw new Error(`${file.name} can’t be unpacked: it is damaged, or larger than this browser `
      + "can hold.");
  }
  return new File([bytes], file.name.replace(/\.gz$/i, ""));
}
