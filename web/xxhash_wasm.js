// SPDX-License-Identifier: MIT
/** The names of the package xxhash-wasm 1.1, so that a program that uses it changes one import. */
import { Stream, TwoxHashError, load, toHex, xxh32, xxh64 } from "./inline.js";

/** Loads the module, and returns the calls. */
export default async function xxhash() {
  await load();
  return CALLS;
}

// There too a seed out of range is taken modulo 2^32 or 2^64.
const seed32 = (seed = 0) => ofType("number", seed) >>> 0;
const seed64 = (seed = 0n) => BigInt.asUintN(64, ofType("bigint", seed));

const h32 = (input, seed) => xxh32(input, seed32(seed));
const h64 = (input, seed) => xxh64(input, seed64(seed));

const CALLS = Object.freeze({
  h32,
  h32Raw: h32,
  h32ToString: (input, seed) => toHex(h32(input, seed), "xxh32"),
  create32: (seed) => new Stream("xxh32", { seed: seed32(seed) }),
  load32: (state) => goingOn(state, "xxh32"),
  h64,
  h64Raw: h64,
  h64ToString: (input, seed) => toHex(h64(input, seed), "xxh64"),
  create64: (seed) => new Stream("xxh64", { seed: seed64(seed) }),
  load64: (state) => goingOn(state, "xxh64"),
});

function ofType(type, seed) {
  if (typeof seed === type) return seed;
  throw new TwoxHashError("seed", `The seed must be a ${type}. Received ${seed === null ? seed : typeof seed}.`);
}

function goingOn(state, kind) {
  const stream = Stream.load(state);
  if (stream.kind === kind) return stream;
  throw new TwoxHashError("state", `The state is of a stream of ${stream.kind}, not of ${kind}.`);
}
