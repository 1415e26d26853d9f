// SPDX-License-Identifier: MIT
/** twox_hash.js with the bytes of both WebAssembly modules inside, for bundles of one file. */
import { load as loadFrom } from "./twox_hash.js";
import { plain, vectors } from "./out/modules.js";

export * from "./twox_hash.js";

/** The `load` of twox_hash.js without a fetch. */
export function load() {
  return loadFrom((hasVectors) => bytesOf(hasVectors ? vectors : plain));
}

function bytesOf(base64) {
  return Uint8Array.from(atob(base64), (character) => character.charCodeAt(0));
}
