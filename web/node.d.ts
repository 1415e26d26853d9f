// SPDX-License-Identifier: MIT
/** Types of node.js: those of twox_hash.js, and a hash with the API of Node's `crypto.Hash`. */
// @ts-ignore: in a program without the types of Node a hash is of type any
import type { Transform } from "node:stream";
import type { Input, Key, Kind } from "./twox_hash.js";

export * from "./twox_hash.js";

/** A hash that is updated, or that a stream is piped into. Its digest finalizes it. */
export class Hash extends Transform {
  private constructor();
  update(piece: Input, encoding?: string): this;
  /** Returns the digest as bytes, a Buffer, the highest first. */
  digest(encoding?: "buffer"): Uint8Array;
  /** Returns the digest as text. */
  digest(encoding: "hex" | "base64" | "base64url" | "latin1" | "binary"): string;
  /** Returns a copy in the same state. */
  copy(): Hash;
}

/** Creates a hash as Node's `crypto.createHash` does. */
export function createHash(kind: Kind, options?: Key): Hash;
