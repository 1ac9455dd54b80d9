/** What the hosts and their tests use of Node. Debian has no package with all of Node's types. */

interface NodeBytes extends Uint8Array {
  subarray(begin?: number, end?: number): NodeBytes;
  toString(encoding?: "base64"): string;
}

declare const Buffer: {
  from(bytes: Uint8Array): NodeBytes;
  from(text: string, encoding?: "base64"): NodeBytes;
  concat(parts: Uint8Array[]): NodeBytes;
};

declare const process: {
  argv: string[];
  platform: string;
  versions: { node: string };
  stdin: AsyncIterable<Uint8Array>;
  chdir(folder: string): void;
  exit(status: number): never;
};

interface ImportMeta {
  url: string;
}

declare module "node:fs" {
  export interface Status {
    mode: bigint;
    size: bigint;
    uid: bigint;
    gid: bigint;
    dev: bigint;
    ino: bigint;
  }
  const fs: {
    constants: Record<
      "O_RDONLY" | "O_WRONLY" | "O_RDWR" | "O_CREAT" | "O_EXCL" | "O_TRUNC",
      number
    >;
    openSync(name: Uint8Array, flags: number, mode?: number): number;
    closeSync(file: number): void;
    fsyncSync(file: number): void;
    readSync(file: number, into: Uint8Array, at: number, length: number, place: null): number;
    writeSync(file: number, bytes: Uint8Array, at: number, length: number, place: null): number;
    writeSync(file: number, text: string): number;
    renameSync(from: Uint8Array, to: Uint8Array): void;
    unlinkSync(name: Uint8Array): void;
    fchmodSync(file: number, mode: number): void;
    lchownSync(name: Uint8Array, owner: number, group: number): void;
    readlinkSync(name: Uint8Array, encoding: "buffer"): NodeBytes;
    statSync(name: Uint8Array, options: { bigint: true }): Status;
    lstatSync(name: Uint8Array, options: { bigint: true }): Status;
    fstatSync(file: number, options: { bigint: true }): Status;
    readFileSync(name: string | Uint8Array | URL): NodeBytes;
  };
  export default fs;
}

declare module "node:readline" {
  const readline: {
    createInterface(from: { input: AsyncIterable<Uint8Array> }): AsyncIterable<string>;
  };
  export default readline;
}

declare module "node:tty" {
  const tty: { isatty(file: number): boolean };
  export default tty;
}

declare module "node:url" {
  export function pathToFileURL(path: string): URL;
}

declare module "node:v8" {
  const v8: { setFlagsFromString(flags: string): void };
  export default v8;
}
