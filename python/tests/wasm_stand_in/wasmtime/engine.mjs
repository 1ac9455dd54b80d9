/**
 * Runs a WebAssembly by Node for `__init__.py`, which has the calls of the host.
 *
 * Words: the module's path, the number of the pipe to Python and of the one from it, and the types
 * of the calls as JSON. Each message is a line of JSON.
 */

import fs from "node:fs";

const [path, toPython, fromPython] = [process.argv[2], ...process.argv.slice(3, 5).map(Number)];
const types = JSON.parse(process.argv[5]);
const LETTERS = { 0x7f: "i32", 0x7e: "i64" };
let rest = "";

/** Sends a message. */
function send(message) {
  const bytes = Buffer.from(`${JSON.stringify(message)}\n`);
  for (let at = 0; at < bytes.length; ) {
    at += fs.writeSync(toPython, bytes, at);
  }
}

/** Returns the next message, or ends if there is none. */
function next() {
  const room = Buffer.alloc(1 << 16);
  const parts = [rest];
  while (!parts[parts.length - 1].includes("\n")) {
    const length = fs.readSync(fromPython, room, 0, room.length, null);
    if (length === 0) {
      process.exit(0);
    }
    parts.push(room.toString("latin1", 0, length));
  }
  const text = parts.join("");
  const end = text.indexOf("\n");
  rest = text.slice(end + 1);
  return JSON.parse(text.slice(0, end));
}

/** Returns the types of the functions that a module imports, by its sections 1 and 2. */
function importedTypes(bytes) {
  let at = 8;
  const number = () => {
    let [found, shift, byte] = [0, 0, 0];
    do {
      byte = bytes[at++];
      found += (byte & 127) * 2 ** shift;
      shift += 7;
    } while (byte & 128);
    return found;
  };
  const list = (read) => Array.from({ length: number() }, read);
  const name = () => {
    const length = number();
    at += length;
    return Buffer.from(bytes.subarray(at - length, at)).toString();
  };
  const kinds = () => list(() => LETTERS[bytes[at++]]);
  let functions = [];
  for (;;) {
    const [section, length] = [bytes[at++], number()];
    const end = at + length;
    if (section === 1) {
      functions = list(() => [bytes[at++], kinds(), kinds()].slice(1));
    }
    if (section === 2) {
      return list(() => [`${name()}.${name()}`, [bytes[at++], functions[number()]][1]]);
    }
    at = end;
  }
}

/** Returns what a call of a name gives, by its type. */
function resultOf(name, text) {
  const [type] = types[`env.${name}`][1];
  if (type === undefined) {
    return undefined;
  }
  return type === "i64" ? BigInt(text) : Number(text);
}

/** Returns the call of a name, whose types are known. */
function callOf(name) {
  return (...words) => {
    send({ call: `env.${name}`, words: words.map(String) });
    for (;;) {
      const told = next();
      if ("result" in told) {
        return resultOf(name, told.result);
      }
      follow(told);
    }
  };
}

let instance;

/** Follows a message that asks for memory. */
function follow(told) {
  if ("read" in told) {
    const bytes = instance.exports.memory.buffer.slice(...told.read);
    send({ answer: Buffer.from(bytes).toString("base64") });
  } else {
    const [at, text] = told.write;
    new Uint8Array(instance.exports.memory.buffer).set(Buffer.from(text, "base64"), at);
    send({ answer: null });
  }
}

/** Makes the instance. */
function instantiate() {
  const bytes = fs.readFileSync(path);
  const calls = {};
  for (const [name, wanted] of importedTypes(bytes)) {
    const [given, asked] = [types[name], wanted].map((type) => JSON.stringify(type));
    if (given !== asked) {
      send({ refused: `${name} has the type ${given} in place of ${asked}` });
      return;
    }
    calls[name.slice("env.".length)] = callOf(name.slice("env.".length));
  }
  instance = new WebAssembly.Instance(new WebAssembly.Module(bytes), { env: calls });
  send({ answer: null });
}

for (;;) {
  const told = next();
  if ("instantiate" in told) {
    instantiate();
  } else if ("main" in told) {
    try {
      const [count, words] = told.main;
      send({ answer: instance.exports.main(Number(count), BigInt(words)) });
    } catch (error) {
      send({ trap: String(error) });
    }
  } else {
    follow(told);
  }
}
