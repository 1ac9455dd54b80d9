/** The program's module as a text, as a page of one file has it. */

/**
 * Returns the module of `text`: base64 of what gzip makes of the module's bytes.
 *
 * @param {string} text
 * @returns {Promise<WebAssembly.Module>}
 * @throws {WebAssembly.CompileError} If this engine can't compile it.
 */
export async function unpackModule(text) {
  const packed = Uint8Array.from(atob(text), (letter) => letter.charCodeAt(0));
  const stream = new Blob([packed]).stream().pipeThrough(new DecompressionStream("gzip"));
  return WebAssembly.compile(await new Response(stream).arrayBuffer());
}
