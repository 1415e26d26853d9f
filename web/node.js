// SPDX-License-Identifier: MIT
/** twox_hash.js for Node, which reads the WebAssembly module from its file, and a hash for Node's streams. */
import { readFile } from "node:fs/promises";
import { pathToFileURL } from "node:url";
import { load as loadFrom } from "./twox_hash.js";

export * from "./twox_hash.js";
export { Hash, createHash } from "./node_hash.js";

/** The location of this file, or of the bundle with it: as CommonJS that has no `import.meta.url`. */
const here = import.meta.url ?? pathToFileURL(__filename).href;

/** The `load` of twox_hash.js, which also reads a `file:` address. */
export function load(source = besideThisFile) {
  return loadFrom((hasVectors) => read(source, hasVectors));
}

function besideThisFile(hasVectors) {
  return new URL(hasVectors ? "twox_hash_simd.wasm" : "twox_hash.wasm", here);
}

async function read(source, hasVectors) {
  if (typeof source === "function") return read(await source(hasVectors), hasVectors);
  if (typeof source !== "string" && !(source instanceof URL)) return source;
  const url = new URL(source, here);
  return url.protocol === "file:" ? readFile(url) : url;
}
