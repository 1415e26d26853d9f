// SPDX-License-Identifier: MIT
/** Types of xxhash_wasm.js, which has the names of the package xxhash-wasm 1.1. */
import type { Input } from "./twox_hash.js";

/** The bytes of a saved stream. */
export type XXHashState = Uint8Array;

/** Bytes or text that come in chunks. */
export interface XXHash<T> {
  update(input: Input): XXHash<T>;
  digest(): T;
  save(): XXHashState;
}

export interface XXHashAPI {
  h32(input: Input, seed?: number): number;
  h32Raw(input: Input, seed?: number): number;
  h32ToString(input: Input, seed?: number): string;
  create32(seed?: number): XXHash<number>;
  load32(state: XXHashState): XXHash<number>;
  h64(input: Input, seed?: bigint): bigint;
  h64Raw(input: Input, seed?: bigint): bigint;
  h64ToString(input: Input, seed?: bigint): string;
  create64(seed?: bigint): XXHash<bigint>;
  load64(state: XXHashState): XXHash<bigint>;
}

/** Loads the module, and returns the calls. */
export default function xxhash(): Promise<XXHashAPI>;
