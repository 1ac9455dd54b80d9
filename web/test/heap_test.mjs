/**
 * Tests the heap and the helpers of web/heap.c, compiled by themselves.
 *
 * usage: node heap_test.mjs HEAP.wasm SEED
 *
 * HEAP.wasm is web/test/heap_exports.c with a memory of at most 1,024 pages. The last line is
 * `N passed`. The first check that fails ends the test with status 1 and a line that names it.
 */

import fs from "node:fs";

/** @typedef {(high: bigint, low: bigint, places: number) => void} Shift */
/** @typedef {(high: bigint, low: bigint, byHigh: bigint, byLow: bigint) => void} Operation */

/**
 * What the heap exports.
 *
 * @typedef {object} Heap
 * @property {WebAssembly.Memory} memory
 * @property {(size: bigint) => bigint} test_alloc
 * @property {(at: bigint, oldSize: bigint, size: bigint) => bigint} test_realloc
 * @property {(at: bigint) => void} test_free
 * @property {Shift} test_shift_left
 * @property {Shift} test_shift_right
 * @property {Operation} test_multiply
 * @property {Operation} test_divide
 * @property {Shift} test_c_shift_left
 * @property {Shift} test_c_shift_right
 * @property {Operation} test_c_multiply
 * @property {Operation} test_c_divide
 * @property {() => bigint} test_high
 * @property {() => bigint} test_low
 */

/**
 * A block that is in use: where it is, its bytes, and what each of them is.
 *
 * @typedef {{ at: number, size: number, fill: number }} Block
 */

const WORD = (1n << 64n) - 1n;
const WIDE = (1n << 128n) - 1n;
const ROUNDS = 40_000;
const MOST_BLOCKS = 400;
const LARGEST = 1n << 40n;

let passed = 0;

/**
 * Counts a check that holds, and ends the test at one that doesn't.
 *
 * @param {boolean} holds
 * @param {string} what What is checked.
 */
function check(holds, what) {
  if (!holds) {
    console.log(`FAILED: ${what}`);
    process.exit(1);
  }
  passed += 1;
}

/**
 * Makes a source of numbers from 0 to `below` - 1 that are the same for the same `seed`.
 *
 * @param {number} seed
 * @returns {(below: number) => number}
 */
function numbers(seed) {
  let state = BigInt(seed) * 2n + 1n;
  return (below) => {
    state = (state * 6364136223846793005n + 1442695040888963407n) & WORD;
    return Number(((state >> 11n) * BigInt(below)) >> 53n);
  };
}

/** A heap with its blocks in use, each of which is filled with a byte of its own. */
class Blocks {
  /**
   * @param {Heap} heap
   * @param {(below: number) => number} next
   */
  constructor(heap, next) {
    this.heap = heap;
    this.next = next;
    /** @type {Block[]} */
    this.used = [];
  }

  /** @param {Block} block */
  bytes({ at, size }) {
    return new Uint8Array(this.heap.memory.buffer, at, size);
  }

  /** @param {number} size */
  take(size) {
    const at = Number(this.heap.test_alloc(BigInt(size)));
    check(at !== 0, `a block of ${size} bytes is there`);
    this.keep({ at, size, fill: this.next(256) });
  }

  /**
   * Checks where a block is, and fills it.
   *
   * @param {Block} block
   */
  keep(block) {
    const { at, size } = block;
    check(at % 16 === 0, `the block at ${at} is aligned to 16`);
    const other = this.used.find((one) => at < one.at + one.size && one.at < at + size);
    check(other === undefined, `the block at ${at} of ${size} bytes lies in no other`);
    this.bytes(block).fill(block.fill);
    this.used.push(block);
  }

  /** Takes a block of any place out of the list, and checks that its bytes are as they were. */
  pick() {
    const [block] = this.used.splice(this.next(this.used.length), 1);
    const isKept = this.bytes(block).every((byte) => byte === block.fill);
    check(isKept, `the block at ${block.at} keeps its bytes`);
    return block;
  }

  /** Gives a block back. */
  free() {
    this.heap.test_free(BigInt(this.pick().at));
  }

  /** @param {number} size */
  resize(size) {
    const { at, size: old, fill } = this.pick();
    const moved = Number(this.heap.test_realloc(BigInt(at), BigInt(old), BigInt(size)));
    check(moved !== 0, `a block of ${size} bytes is there in the place of one of ${old}`);
    const kept = this.bytes({ at: moved, size: Math.min(old, size), fill });
    check(kept.every((byte) => byte === fill), `the block moved to ${moved} keeps its bytes`);
    this.keep({ at: moved, size, fill });
  }
}

/**
 * Takes, resizes and gives back blocks in any order.
 *
 * @param {Heap} heap
 * @param {(below: number) => number} next
 */
function testBlocks(heap, next) {
  const blocks = new Blocks(heap, next);
  for (let round = 0; round < ROUNDS; round += 1) {
    const size = next(1 << next(13));
    const kind = next(5);
    if (blocks.used.length === 0 || (kind < 2 && blocks.used.length < MOST_BLOCKS)) {
      blocks.take(size);
    } else if (kind < 4) {
      blocks.free();
    } else {
      blocks.resize(size);
    }
  }
  while (blocks.used.length > 0) {
    blocks.free();
  }
}

/**
 * Takes blocks until one is refused, and checks that blocks that are given back are used again.
 *
 * @param {Heap} heap
 */
function testLimit(heap) {
  const size = 1n << 20n;
  const taken = [];
  for (let at = heap.test_alloc(size); at !== 0n; at = heap.test_alloc(size)) {
    taken.push(at);
    check(taken.length <= 64, "a memory of 64 MB refuses a block at last");
  }
  check(taken.length >= 40, `most of 64 MB can be taken before that: ${taken.length}`);
  check(heap.test_alloc(size) === 0n, "what is refused once is refused again");
  new Uint8Array(heap.memory.buffer, Number(taken[0]), 3).set([1, 2, 3]);
  check(heap.test_realloc(taken[0], size, 4n * size) === 0n, "a larger block is refused");
  const kept = new Uint8Array(heap.memory.buffer, Number(taken[0]), 3);
  check(kept.join() === "1,2,3", "a block that can't be made larger stays as it was");
  const pages = heap.memory.buffer.byteLength;
  taken.forEach((at) => heap.test_free(at));
  const again = new Set(taken.map(() => heap.test_alloc(size)));
  check(again.size === taken.length && !again.has(0n), "as many blocks are there again");
  check(taken.every((at) => again.has(at)), "they are those that were given back");
  check(heap.memory.buffer.byteLength === pages, "the memory doesn't grow for them");
}

/**
 * Asks for more than any memory has.
 *
 * @param {Heap} heap
 */
function testHugeSizes(heap) {
  const past = [(1n << 32n) - 16n, 1n << 32n, (1n << 32n) + 1n, 1n << 33n, 1n << 39n];
  for (const size of [...past, LARGEST, LARGEST + 1n, 1n << 63n, WORD - 15n, WORD]) {
    check(heap.test_alloc(size) === 0n, `a block of ${size} bytes is refused`);
  }
  check(heap.test_alloc(0n) !== 0n, "a block of no bytes is there");
}

/**
 * Compares the results for `one` and `other` with those of the engine.
 *
 * @param {Heap} heap
 * @param {"" | "c_"} by Whether the helpers are called, or the operators of C that need them.
 * @param {bigint} one
 * @param {bigint} other
 */
function testPair(heap, by, one, other) {
  /** @type {(wanted: bigint, what: string) => void} */
  const checkResult = (wanted, what) => {
    const low = BigInt.asUintN(64, heap.test_low());
    check((BigInt.asUintN(64, heap.test_high()) << 64n | low) === wanted, `${by}${what}`);
  };
  const [high, low, places] = [one >> 64n, one & WORD, Number(other & 127n)];
  heap[`test_${by}shift_left`](high, low, places);
  checkResult((one << BigInt(places)) & WIDE, `${one} << ${places}`);
  heap[`test_${by}shift_right`](high, low, places);
  checkResult(one >> BigInt(places), `${one} >> ${places}`);
  heap[`test_${by}multiply`](high, low, other >> 64n, other & WORD);
  checkResult((one * other) & WIDE, `${one} * ${other}`);
  if (other !== 0n) {
    heap[`test_${by}divide`](high, low, other >> 64n, other & WORD);
    checkResult(one / other, `${one} / ${other}`);
  }
}

/**
 * Compares the helpers for 128 bits with the engine's own whole numbers.
 *
 * @param {Heap} heap
 * @param {(below: number) => number} next
 */
function testNumbers(heap, next) {
  const edges = [0n, 1n, 2n, 0xffffffffn, 1n << 32n, WORD, WORD + 1n, WIDE >> 1n, WIDE - 1n, WIDE];
  const word = () => (BigInt(next(1 << 30)) << 34n) | BigInt(next(1 << 30));
  const any = () => ((word() << 64n) | word()) >> BigInt(next(128));
  const pairs = edges.flatMap((one) => edges.map((other) => [one, other]));
  for (let round = 0; round < 5000; round += 1) {
    pairs.push([any(), any()]);
  }
  for (const [one, other] of pairs) {
    for (const by of /** @type {("" | "c_")[]} */ (["", "c_"])) {
      testPair(heap, by, one, other);
    }
  }
}

/** Runs each test over a heap of its own. */
function main() {
  const module = new WebAssembly.Module(fs.readFileSync(process.argv[2]));
  const fresh = () =>
    /** @type {Heap} */ (/** @type {unknown} */ (new WebAssembly.Instance(module).exports));
  const seed = Number(process.argv[3]);
  testBlocks(fresh(), numbers(seed));
  testLimit(fresh());
  testHugeSizes(fresh());
  testNumbers(fresh(), numbers(seed));
  console.log(`${passed} passed`);
}

main();
