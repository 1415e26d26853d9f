// SPDX-License-Identifier: MIT
/** Types of twox_hash.js: XXH32, XXH64 and XXH3 by the WebAssembly module of the proved crate `twox_web`. */

/** The hashes. */
export type Kind = "xxh32" | "xxh64" | "xxh3_64" | "xxh3_128";

/** The hashes, in the order in which the page shows them. */
export const KINDS: readonly Kind[];

/** Minimum length of a secret, in bytes. */
export const SECRET_MINIMUM_LENGTH: 136;

/** Bytes as an argument. */
export type Bytes = ArrayBuffer | SharedArrayBuffer | ArrayBufferView;

/** The input: bytes, or text, which is hashed as UTF-8. */
export type Input = string | Bytes;

/** An integer from 0 to 2^32 - 1 for XXH32, and to 2^64 - 1 for the others: from 2^53 on a bigint. */
export type Seed = number | bigint;

/** The value of a hash: of 32 bits a number, and of more a bigint. */
export type ValueOf<K extends Kind> = K extends "xxh32" ? number : bigint;

/**
 * The seed and secret in effect: with both, the seed up to 240 bytes of input and the secret above; with only a
 * secret, the secret at every length; with neither, the default secret with the seed 0.
 */
export interface Key {
  seed?: Seed;
  /** 136 bytes or more; text is used as UTF-8. */
  secret?: Input;
}

/** The code of an error. */
export type ErrorCode =
  | "unsupported"
  | "load"
  | "not-loaded"
  | "kind"
  | "input"
  | "seed"
  | "secret"
  | "options"
  | "value"
  | "state"
  | "freed"
  | "memory";

/** The error that these calls throw. */
export class TwoxHashError extends Error {
  constructor(code: ErrorCode, message: string, options?: { cause?: unknown });
  readonly name: "TwoxHashError";
  readonly code: ErrorCode;
}

/** True if WebAssembly is available. */
export function isSupported(): boolean;

/** True if WebAssembly has vectors of 128 bits, so that `load()` uses the faster of the two modules. */
export function hasVectors(): boolean;

/** The instance of a class of the environment, if it has that class: a program needs no types of a browser. */
type Made<Name extends string> = typeof globalThis extends { [K in Name]: { prototype: infer T } } ? T : never;
type Compiled = typeof globalThis extends { WebAssembly: { Module: { prototype: infer T } } } ? T : never;

/** The WebAssembly module, or its location. */
export type Source = string | Bytes | Made<"URL"> | Made<"Response"> | Compiled;

/**
 * Loads the module. A second call waits for the first one and reads nothing.
 *
 * @param source the module, or a function that returns it, with a flag for vectors as argument; by default,
 *     `twox_hash_simd.wasm` or `twox_hash.wasm` next to this file
 * @throws {TwoxHashError} `unsupported`, `load`
 */
export function load(source?: Source | ((hasVectors: boolean) => Source | Promise<Source>)): Promise<void>;

/**
 * Returns the value with all digits of its hash, including leading zeros: 8, 16 or 32.
 *
 * @throws {TwoxHashError} `value`, `kind`
 */
export function toHex(value: bigint, kind: Kind): string;
export function toHex(value: number, kind: "xxh32"): string;

/**
 * Returns the value as 4, 8 or 16 bytes, the highest first, in the order of its digits.
 *
 * @throws {TwoxHashError} `value`, `kind`
 */
export function toBytes(value: bigint, kind: Kind): Uint8Array;
export function toBytes(value: number, kind: "xxh32"): Uint8Array;

/** XXH32, below 2^32. */
export function xxh32(input: Input, seed?: Seed): number;

/** XXH64, below 2^64. */
export function xxh64(input: Input, seed?: Seed): bigint;

/** XXH3 64-bit, below 2^64. */
export function xxh3_64(input: Input, options?: Key): bigint;

/** XXH3 128-bit, below 2^128. */
export function xxh3_128(input: Input, options?: Key): bigint;

/** Bytes or text that come in chunks. */
export class Stream<K extends Kind = Kind> {
  /** Creates a stream of no bytes. XXH32 and XXH64 take no secret. */
  constructor(kind: K, options?: Key);
  /** The hash that `digest()` returns. */
  readonly kind: K;
  /** Hashes a chunk after those before. Text is hashed as UTF-8, each chunk by itself. */
  update(piece: Input): this;
  /** Returns the hash of the bytes so far; more may follow. A stream of XXH3 has both widths. */
  digest(): ValueOf<K>;
  digest<L extends Kind>(kind: L): ValueOf<L>;
  /**
   * Returns the stream's state as bytes, from which `Stream.load` continues. They don't contain a secret that was
   * passed in.
   */
  save(): Uint8Array;
  /** Returns a copy of the stream. */
  copy(): Stream<K>;
  /**
   * Creates a stream that continues from a saved state, with the secret that the stream was started with, if there was
   * one.
   *
   * @throws {TwoxHashError} `state` if no stream leads to these bytes, `secret` if it is another one
   */
  static load(saved: Bytes, options?: { secret?: Input }): Stream;
  /** Frees the stream, as garbage collection also does. Later calls of it are refused. */
  free(): void;
}

/**
 * Hashes the same chunk with several streams, copying it to the module once. If one of them was freed, none hashes it.
 */
export function updateAll(streams: Iterable<Stream>, piece: Input): void;
