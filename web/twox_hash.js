// SPDX-License-Identifier: MIT
/**
 * XXH32, XXH64 and XXH3 of 64 and 128 bits by the WebAssembly module that is built from the proved crate `twox_web`.
 * This file only copies bytes to the module and values back: it is tested, not proved. It uses only what browsers have;
 * node.js and inline.js load the module in other ways.
 *
 *     import { load, toHex, xxh64 } from "./twox_hash.js";
 *     await load();
 *     toHex(xxh64("some bytes", 1234n), "xxh64"); // eab55659a496d78b
 */

/** The codes that calls of the module return, by their names in the crate `twox_web`. */
const DONE = 0;
const SECRET_TOO_SHORT = 1;
const NOT_A_STREAM = 2;

/** Minimum length of a secret, in bytes. */
export const SECRET_MINIMUM_LENGTH = 136;

/** The length of a secret derived from a seed. */
const DERIVED_SECRET_LENGTH = 192;

/** Number of bytes copied to the module at a time: few enough to stay in a second-level cache. */
const CHUNK_BYTES = 128 * 1024;

/** The unit in which the module's memory grows. */
const PAGE_BYTES = 65536;

/** The alignment of addresses. */
const ALIGNMENT = 256;

/** Number of streams of a family in the module's memory. */
const PLACES = 64;

/** A secret of at most this many bytes is stored next to its stream. */
const SHORT_SECRET_LENGTH = 256;

/** The hashes. */
export const KINDS = Object.freeze(["xxh32", "xxh64", "xxh3_64", "xxh3_128"]);

/** The stream that computes a hash: one of XXH3 has both widths. */
const FAMILY = { xxh32: "xxh32", xxh64: "xxh64", xxh3_64: "xxh3", xxh3_128: "xxh3" };

/** Bits of each hash's value and of its seed. */
const VALUE_BITS = { xxh32: 32, xxh64: 64, xxh3_64: 64, xxh3_128: 128 };
const SEED_BITS = { xxh32: 32, xxh64: 64, xxh3_64: 64, xxh3_128: 64 };

/**
 * Every error of this file. `code` is its kind:
 *
 * - `"unsupported"`: there is no WebAssembly here.
 * - `"load"`: the module couldn't be read, or isn't the one of `twox_web`.
 * - `"not-loaded"`: `load()` hasn't been awaited.
 * - `"kind"`: the name isn't in `KINDS`, or the stream is of another hash.
 * - `"input"`: the input is neither text nor an `ArrayBuffer` or a view of one.
 * - `"seed"`: the seed isn't an integer in the hash's range.
 * - `"secret"`: the secret is neither text nor bytes, has fewer than 136 of them, or the hash takes none.
 * - `"options"`: the options aren't an object, or have an unknown name.
 * - `"value"`: the value isn't one of the hash.
 * - `"state"`: the bytes aren't a stream's saved state.
 * - `"freed"`: the stream was freed.
 * - `"memory"`: out of memory.
 */
export class TwoxHashError extends Error {
  constructor(code, message, options) {
    super(message, options);
    this.name = "TwoxHashError";
    this.code = code;
  }
}

/** A module with one function, which makes a vector: i32.const 0, i8x16.splat, i8x16.popcnt. */
const VECTORS = Uint8Array.of(
  0, 0x61, 0x73, 0x6d, 1, 0, 0, 0, 1, 5, 1, 0x60, 0, 1, 0x7b, 3, 2, 1, 0, 10, 10, 1, 8, 0, 0x41, 0, 0xfd, 0x0f, 0xfd,
  0x62, 0x0b,
);

/** True if WebAssembly is available. */
export function isSupported() {
  return typeof WebAssembly === "object";
}

/** True if WebAssembly has vectors of 128 bits, so that `load()` uses the faster of the two modules. */
export function hasVectors() {
  return isSupported() && WebAssembly.validate(VECTORS);
}

let loaded = null;
let loading = null;

/**
 * Loads the module. A second call waits for the first one and reads nothing.
 *
 * @param {Source | ((hasVectors: boolean) => Source | Promise<Source>)} [source] the module, where `Source` is `URL |
 *     string | Response | BufferSource | WebAssembly.Module`, or a function that returns it, with a flag for vectors as
 *     argument; by default, `twox_hash_simd.wasm` or `twox_hash.wasm` next to this file is fetched
 * @returns {Promise<void>}
 */
export async function load(source = besideThisFile) {
  if (loaded) return;
  if (!isSupported()) throw new TwoxHashError("unsupported", "WebAssembly is not available here.");
  loading ??= instantiate(source).then((exports) => { loaded = new Instance(exports); });
  try {
    await loading;
  } catch (error) {
    loading = null;
    if (error instanceof TwoxHashError) throw error;
    const reason = error?.message ?? String(error); // a source may throw anything
    throw new TwoxHashError("load", `The WebAssembly module couldn't be loaded: ${reason}`, { cause: error });
  }
}

/**
 * The location of this file: a module knows it; in a bundle that is a classic script it is the bundle's, or the page's.
 */
const here = import.meta.url ?? globalThis.document?.currentScript?.src ?? globalThis.location?.href;

/** Bundlers find the modules by exactly these expressions, and copy them next to their output. */
function besideThisFile(withVectors) {
  if (import.meta.url === undefined) return withVectors ? "twox_hash_simd.wasm" : "twox_hash.wasm";
  return withVectors ? new URL("twox_hash_simd.wasm", import.meta.url) : new URL("twox_hash.wasm", import.meta.url);
}

async function instantiate(source) {
  const given = typeof source === "function" ? await source(hasVectors()) : source;
  const compiled = given instanceof WebAssembly.Module ? given : await WebAssembly.compile(await bytesOf(given));
  const { exports } = await WebAssembly.instantiate(compiled, {});
  if (typeof exports.twox_xxh3_update !== "function") {
    throw new TwoxHashError("load", "This WebAssembly module isn't the one of the crate twox_web.");
  }
  return exports;
}

async function bytesOf(source) {
  if (isBytes(source)) return ownView(source);
  if (typeof Response === "function" && source instanceof Response) return fetched(source);
  const url = addressOf(source);
  if (url.protocol === "file:") throw new Error(`${url} is a file: only node.js can read it`);
  return fetched(await fetch(url));
}

function addressOf(source) {
  try {
    return new URL(source, here);
  } catch (error) {
    throw new Error(`${wordOr(source, nameOf(source))} is not a URL here: pass the module's bytes to load(), or use twox_hash/inline`, { cause: error });
  }
}

async function fetched(response) {
  if (!response.ok) throw new Error(`${response.url}: HTTP status ${response.status}`);
  return response.arrayBuffer();
}

const encoder = new TextEncoder();

/** The places of a family's active streams. The others keep their bytes themselves, so none has to be freed. */
class Places {
  constructor(memory, family) {
    this.length = Number(memory.exports[`twox_${family}_stream_size`]());
    this.update = memory.exports[`twox_${family}_update`];
    this.all = Array.from({ length: PLACES }, () => ({ record: memory.take(this.length), secret: memory.take(SHORT_SECRET_LENGTH), stream: null }));
    this.next = 0;
    this.freed = null;
  }

  /** Returns the place that was freed last, or the next one in turn. */
  take() {
    const place = this.freed ?? this.all[this.next];
    if (this.freed === null) this.next = (this.next + 1) % PLACES;
    this.freed = null;
    return place;
  }

  free(place) {
    place.stream = null;
    this.freed = place;
  }
}

/**
 * The module's memory: a value, a chunk of input, the places of streams, and at its end a secret, with which it grows.
 */
class Instance {
  constructor(exports) {
    this.exports = exports;
    this.end = Number(exports.__heap_base.value);
    this.size = 0;
    this.value = this.take(16);
    this.chunk = this.take(CHUNK_BYTES);
    this.places = Object.fromEntries(["xxh32", "xxh64", "xxh3"].map((family) => [family, new Places(this, family)]));
    this.secret = this.take(0);
    this.secretThere = null;
    this.look();
  }

  /** The bytes of the memory. After it has grown, a larger view is needed. */
  get bytes() {
    if (this.view.buffer !== this.exports.memory.buffer) this.look();
    return this.view;
  }

  /** The chunk's bytes: nothing can be written past its end. */
  get chunkBytes() {
    if (this.view.buffer !== this.exports.memory.buffer) this.look();
    return this.chunkView;
  }

  look() {
    this.view = new Uint8Array(this.exports.memory.buffer);
    this.chunkView = this.view.subarray(this.chunk, this.chunk + CHUNK_BYTES);
  }

  /** Returns the address of that many bytes, a multiple of 256. */
  take(length) {
    const start = Math.ceil(this.end / ALIGNMENT) * ALIGNMENT;
    this.end = start + length;
    this.grow(this.end);
    return start;
  }

  /** Makes the memory at least that long: grows by at least half, so that growing in small steps takes no longer. */
  grow(length) {
    if (length <= this.size) return;
    const { memory } = this.exports;
    const [pages, needed] = [memory.buffer.byteLength, length].map((bytes) => Math.ceil(bytes / PAGE_BYTES));
    if (needed > pages) growBy(memory, Math.max(needed - pages, pages >> 1), needed - pages);
    this.size = memory.buffer.byteLength;
  }

  /** Writes bytes at an address. */
  put(start, bytes) {
    this.bytes.set(bytes, start);
  }

  /** Writes a secret at the end. */
  putSecret(secret) {
    this.secretThere = null;
    this.grow(this.secret + lengthOf(secret));
    this.put(this.secret, secret);
  }

  /** Puts a stream's secret at the end, unchanged. */
  holdSecret(secret) {
    if (this.secretThere === secret) return;
    this.putSecret(secret);
    this.secretThere = secret;
  }

  /**
   * Writes text or bytes of that length into the chunk, from `from` on and as far as they fit. Returns the end,
   * counted as `from` is, and the number of bytes.
   */
  putPiece(input, whole, from) {
    if (typeof input === "string") {
      const { read, written } = encoder.encodeInto(partOf(input, from), this.chunkBytes);
      return { end: from + read, length: written };
    }
    const length = Math.min(whole - from, CHUNK_BYTES);
    this.chunkBytes.set(length === whole ? input : input.subarray(from, from + length));
    return { end: from + length, length };
  }

  /** Returns the value of this many bits that a call wrote. */
  written(bits) {
    const view = new DataView(this.exports.memory.buffer, this.value);
    if (bits === 32) return view.getUint32(0, true);
    const low = view.getBigUint64(0, true);
    return bits === 64 ? low : (view.getBigUint64(8, true) << 64n) | low;
  }
}

/**
 * Returns text from there on, of at most as many units as the chunk has bytes, which doesn't end within a surrogate
 * pair.
 */
function partOf(text, from) {
  const to = from + CHUNK_BYTES;
  if (to >= text.length) return from === 0 ? text : text.slice(from);
  const isFirstOfPair = (text.charCodeAt(to - 1) & 0xfc00) === 0xd800;
  return text.slice(from, isFirstOfPair ? to - 1 : to);
}

/** Grows the memory by this many pages, or by fewer if there are no more. */
function growBy(memory, pages, least) {
  try {
    memory.grow(pages);
  } catch (error) {
    if (pages > least) return growBy(memory, least, least);
    throw new TwoxHashError("memory", "Out of memory in the WebAssembly module.", { cause: error });
  }
}

function loadedModule() {
  if (!loaded) throw new TwoxHashError("not-loaded", "Await load() before the first call.");
  return loaded;
}

/** A getter of every object of a kind, whatever a subclass or the object itself defines. */
function getterOf(kind, name) {
  return Object.getOwnPropertyDescriptor(kind.prototype, name).get;
}

const TypedArray = Object.getPrototypeOf(Uint8Array);
const lengthOfArray = getterOf(TypedArray, "length");
const tagOfArray = getterOf(TypedArray, Symbol.toStringTag);
const lengthsOfBuffers = [ArrayBuffer, globalThis.SharedArrayBuffer].filter(Boolean).map((kind) => getterOf(kind, "byteLength"));
const [ofArray, ofDataView] = [TypedArray, DataView].map((kind) => ["buffer", "byteOffset", "byteLength"].map((name) => getterOf(kind, name)));

/** The length of text, or of bytes. */
function lengthOf(input) {
  return typeof input === "string" ? input.length : lengthOfArray.call(input);
}

/** Returns text unchanged, and other input as bytes. */
function asInput(input) {
  return typeof input === "string" ? input : asBytes(input);
}

/** Returns bytes unchanged if they fit into the chunk, and otherwise as an array of this file's own. */
function asBytes(input, code = "input", what = "The input", expected = "text or bytes") {
  if (tagOfArray.call(input) === "Uint8Array") {
    const length = lengthOfArray.call(input);
    if (length > 0 && length <= CHUNK_BYTES) return input;
  }
  if (!isBytes(input)) {
    throw new TwoxHashError(code, `${what} must be ${expected}, an ArrayBuffer or a view of one. Received ${nameOf(input)}.`);
  }
  try {
    return ownView(input);
  } catch (error) {
    throw new TwoxHashError(code, `${what} has no bytes: its buffer is detached or too short.`, { cause: error });
  }
}

/** True if it is a buffer or a view of one, of this page or of another. */
function isBytes(given) {
  return ArrayBuffer.isView(given) || lengthsOfBuffers.some((lengthOfBuffer) => {
    try {
      lengthOfBuffer.call(given);
      return true;
    } catch {
      return false;
    }
  });
}

/** Returns the bytes of a view or a buffer, as an array without added properties. Throws if they are detached. */
function ownView(given) {
  if (!ArrayBuffer.isView(given)) return new Uint8Array(given);
  const isArray = tagOfArray.call(given) !== undefined;
  if (isArray) TypedArray.prototype.keys.call(given); // refuses one that is out of its buffer's bounds
  return new Uint8Array(...(isArray ? ofArray : ofDataView).map((get) => get.call(given)));
}

function nameOf(value) {
  if (value === null || value === undefined) return String(value);
  if (typeof value === "object") return `an object of ${wordOr(value.constructor?.name, "no class")}`;
  return `a ${typeof value}`;
}

function wordOr(value, otherwise) {
  return typeof value === "string" ? value : otherwise;
}

/** Returns the seed as a BigInt in the hash's range. */
function asSeed(seed, bits) {
  if (seed === 0 || seed === 0n) return 0n;
  if (typeof seed !== "bigint" && !Number.isInteger(seed)) {
    throw new TwoxHashError("seed", `The seed must be a BigInt or an integer. Received ${shown(seed)}.`);
  }
  if (seed > Number.MAX_SAFE_INTEGER && typeof seed === "number") {
    throw new TwoxHashError("seed", `The seed ${seed} may be rounded: from 2^53 on it must be a BigInt.`);
  }
  const value = BigInt(seed);
  if (value < 0n || value >> BigInt(bits)) {
    throw new TwoxHashError("seed", `The seed ${value} is out of range: it must be from 0 to 2^${bits} - 1.`);
  }
  return value;
}

function shown(value) {
  return typeof value === "number" ? String(value) : nameOf(value);
}

function asSecret(secret) {
  const bytes = typeof secret === "string" ? encoder.encode(secret) : asBytes(secret, "secret", "The secret");
  if (lengthOf(bytes) < SECRET_MINIMUM_LENGTH) {
    throw new TwoxHashError("secret", `The secret has ${lengthOf(bytes)} bytes. It needs at least ${SECRET_MINIMUM_LENGTH}.`);
  }
  return bytes;
}

function asKind(kind) {
  if (KINDS.includes(kind)) return kind;
  throw new TwoxHashError("kind", `The kind must be one of ${KINDS.join(", ")}. Received ${wordOr(kind, nameOf(kind))}.`);
}

/** Returns the seed and the secret of the options, each undefined if it isn't given. */
function asKey(kind, options) {
  if (options === null || typeof options !== "object") {
    throw new TwoxHashError("options", `The options must be an object. Received ${nameOf(options)}.`);
  }
  for (const name of Object.keys(options)) {
    if (name !== "seed" && name !== "secret") throw new TwoxHashError("options", `Unknown option ${name}.`);
  }
  const { seed, secret } = options;
  if (secret !== undefined && !isXxh3(kind)) throw new TwoxHashError("secret", `${kind} takes no secret.`);
  return {
    seed: seed === undefined ? undefined : asSeed(seed, SEED_BITS[kind]),
    secret: secret === undefined ? undefined : asSecret(secret),
  };
}

function isXxh3(kind) {
  return FAMILY[kind] === "xxh3";
}

/** Converts a code of the module to an error. This file tests everything before it calls, so none occurs. */
function refuse(code) {
  if (code === DONE) return;
  if (code === SECRET_TOO_SHORT) throw new TwoxHashError("secret", "The module refused the secret: it is too short.");
  if (code === NOT_A_STREAM) throw new TwoxHashError("kind", "The module found no stream there.");
  throw new TwoxHashError("load", `The module returned the unknown code ${code}.`);
}

/**
 * Returns the value with all digits of its hash, including leading zeros.
 *
 * @param {number | bigint} value the result of a call
 * @param {"xxh32" | "xxh64" | "xxh3_64" | "xxh3_128"} kind the hash of the value
 * @returns {string} 8, 16 or 32 digits
 */
export function toHex(value, kind) {
  const bits = VALUE_BITS[asKind(kind)];
  if (typeof value !== "bigint" && !(bits === 32 && Number.isInteger(value))) {
    const expected = bits === 32 ? "a whole number" : "a BigInt";
    throw new TwoxHashError("value", `The value must be ${expected}. Received ${shown(value)}.`);
  }
  if (value < 0 || BigInt(value) >> BigInt(bits)) {
    throw new TwoxHashError("value", `The value ${value} is out of range for ${kind}: it must be from 0 to 2^${bits} - 1.`);
  }
  return value.toString(16).padStart(bits / 4, "0");
}

/**
 * Returns the value as 4, 8 or 16 bytes, the highest first, in the order of its digits.
 *
 * @param {number | bigint} value the result of a call
 * @param {"xxh32" | "xxh64" | "xxh3_64" | "xxh3_128"} kind the hash of the value
 * @returns {Uint8Array}
 */
export function toBytes(value, kind) {
  return Uint8Array.from(toHex(value, kind).match(/../g), (pair) => parseInt(pair, 16));
}

// ---- one-shots

/**
 * XXH32 of bytes, or of text as UTF-8.
 *
 * @param {string | BufferSource} input
 * @param {number | bigint} [seed] from 0 to 2^32 - 1
 * @returns {number} below 2^32
 */
export function xxh32(input, seed = 0) {
  return hash("xxh32", input, { seed });
}

/**
 * XXH64 of bytes, or of text as UTF-8.
 *
 * @param {string | BufferSource} input
 * @param {number | bigint} [seed] from 0 to 2^64 - 1
 * @returns {bigint} below 2^64
 */
export function xxh64(input, seed = 0) {
  return hash("xxh64", input, { seed });
}

/**
 * XXH3 64-bit of bytes, or of text as UTF-8. With a seed and a secret the seed has an effect up to 240 bytes, and the
 * secret above; with only a secret, it has one at every length.
 *
 * @param {string | BufferSource} input
 * @param {{ seed?: number | bigint, secret?: string | BufferSource }} [options] the seed from 0 to 2^64 - 1, the secret
 *     of 136 bytes or more
 * @returns {bigint} below 2^64
 */
export function xxh3_64(input, options = {}) {
  return hash("xxh3_64", input, options);
}

/**
 * XXH3 128-bit, with the same options.
 *
 * @param {string | BufferSource} input
 * @param {{ seed?: number | bigint, secret?: string | BufferSource }} [options]
 * @returns {bigint} below 2^128
 */
export function xxh3_128(input, options = {}) {
  return hash("xxh3_128", input, options);
}

function hash(kind, given, options) {
  const memory = loadedModule();
  const key = asKey(kind, options); // first, since a getter of the options may change the input
  const input = asInput(given);
  const whole = lengthOf(input);
  if (whole > CHUNK_BYTES) return hashInPieces(kind, input, options);
  const { end, length } = memory.putPiece(input, whole, 0);
  return end < whole ? hashInPieces(kind, input, options) : hashAtOnce(memory, kind, length, key);
}

function hashInPieces(kind, input, options) {
  return new Stream(kind, options).update(input).digest();
}

/** Returns the hash of the bytes in the chunk. */
function hashAtOnce(memory, kind, length, { seed, secret }) {
  if (secret === undefined) return oneshot(memory, kind, seed ?? 0n, length);
  memory.putSecret(secret);
  return oneshotWithSecret(memory, kind, seed, [memory.secret, lengthOf(secret)], length);
}

function oneshot(memory, kind, seed, length) {
  const { exports: calls, chunk: input } = memory;
  switch (kind) {
    case "xxh32": return calls.twox_xxh32(Number(seed), input, length) >>> 0;
    case "xxh64": return BigInt.asUintN(64, calls.twox_xxh64(seed, input, length));
    case "xxh3_64": return BigInt.asUintN(64, oneshot64(calls, seed, input, length));
    default:
      if (seed === 0n) calls.twox_xxh3_128(input, length, memory.value);
      else calls.twox_xxh3_128_with_seed(seed, input, length, memory.value);
      return memory.written(128);
  }
}

function oneshot64(calls, seed, input, length) {
  return seed === 0n ? calls.twox_xxh3_64(input, length) : calls.twox_xxh3_64_with_seed(seed, input, length);
}

function oneshotWithSecret(memory, kind, seed, secret, length) {
  const name = seed === undefined ? `twox_${kind}_with_secret` : `twox_${kind}_with_seed_and_secret`;
  const seeds = seed === undefined ? [] : [seed];
  refuse(memory.exports[name](...seeds, ...secret, memory.chunk, length, memory.value));
  return memory.written(VALUE_BITS[kind]);
}

// ---- streams

/** Hashes bytes in the module's memory with a stream. Not a method, so that callers don't use it. */
let updateFromMemory;

/** Refuses other objects, and a stream that was freed. */
let refuseUnlessOpen;

/** Bytes or text that come in chunks. `update` hashes a chunk, and `digest` returns the hash of all so far. */
export class Stream {
  #kind;
  #places;
  #place = null; // its place, or its last one before another stream took it
  #record = null; // its bytes, once another has taken the place
  #secret = null; // the secret that was passed in or derived, once another has taken the place
  #secretLength = 0;
  #hasOwnSecret = false;

  static {
    updateFromMemory = (stream, start, length) => stream.#updateFrom(start, length);
    refuseUnlessOpen = (stream) => {
      if (Object(stream) !== stream || !(#places in stream)) throw new TwoxHashError("input", `Not a Stream. Received ${nameOf(stream)}.`);
      if (stream.#places === null) throw new TwoxHashError("freed", "The stream was freed.");
    };
  }

  /**
   * Creates a stream of no bytes.
   *
   * @param {"xxh32" | "xxh64" | "xxh3_64" | "xxh3_128"} kind
   * @param {{ seed?: number | bigint, secret?: string | BufferSource }} [options] as for the one-shots; XXH32 and
   *     XXH64 take no secret
   */
  constructor(kind, options = {}) {
    const memory = loadedModule();
    this.#kind = asKind(kind);
    const key = asKey(kind, options);
    this.#places = memory.places[FAMILY[kind]];
    this.#takePlace(memory);
    if (isXxh3(kind)) this.#startXxh3(memory, key);
    else this.#startPlain(memory, key);
  }

  /** The hash that `digest()` returns. */
  get kind() {
    return this.#kind;
  }

  /**
   * Hashes a chunk after those before. Text is hashed as UTF-8, each chunk by itself.
   *
   * @param {string | BufferSource} piece
   * @returns {this}
   */
  update(piece) {
    takePiece([this], piece);
    return this;
  }

  /**
   * Returns the hash of the bytes so far. More may be hashed afterwards. A stream of XXH3 has both widths.
   *
   * @param {"xxh32" | "xxh64" | "xxh3_64" | "xxh3_128"} [kind] the stream's own by default
   * @returns {number | bigint} a number of XXH32, and a BigInt of the others
   */
  digest(kind = this.#kind) {
    const memory = this.#enter();
    if (FAMILY[asKind(kind)] !== FAMILY[this.#kind]) {
      throw new TwoxHashError("kind", `A stream of ${this.#kind} has no digest of ${kind}.`);
    }
    refuse(this.#digestCode(memory, kind));
    return memory.written(VALUE_BITS[kind]);
  }

  /**
   * Returns the stream's state as bytes, from which `Stream.load` continues. They don't contain a secret that was
   * passed in.
   *
   * @returns {Uint8Array}
   */
  save() {
    const memory = this.#enter();
    const record = toSavedRecord(this.#kind, this.#recordThere(memory));
    return savedOf(this.#kind, record, this.#hasOwnSecret ? this.#digestOfSecret(memory) : undefined);
  }

  /**
   * Creates a stream that continues from a saved state.
   *
   * @param {BufferSource} saved the result of `save`
   * @param {{ secret?: string | BufferSource }} [options] the secret that the stream was started with, if there was one
   * @returns {Stream}
   */
  static load(saved, options = {}) {
    const memory = loadedModule();
    const state = readSaved(memory, ownView(asBytes(saved, "state", "The saved state", "bytes")));
    const { seed } = options ?? {};
    if (seed !== undefined) throw new TwoxHashError("options", "The seed is part of the saved state.");
    const { secret } = asKey(state.kind, options);
    const stream = new Stream(state.kind, secret === undefined ? { seed: state.seed } : { secret });
    stream.#goOnFrom(memory, state);
    return stream;
  }

  #goOnFrom(memory, { record, digestOfSecret }) {
    const digest = this.#hasOwnSecret ? this.#digestOfSecret(memory) : undefined;
    if (digest !== digestOfSecret) throw new TwoxHashError("secret", secretText(digest, digestOfSecret));
    memory.put(this.#place.record, record);
    if (this.#digestCode(memory) !== DONE) throw notAState("no bytes lead to it");
  }

  #digestOfSecret(memory) {
    return BigInt.asUintN(64, memory.exports.twox_xxh64(0n, this.#secretAt(memory), this.#secretLength));
  }

  // The module's code for the record; its digest is written to the value's place.
  #digestCode(memory, kind = this.#kind) {
    const digest = memory.exports[`twox_${kind}_digest`];
    const { record } = this.#place;
    return this.#secretLength === 0 ? digest(record, memory.value)
      : digest(record, this.#secretAt(memory), this.#secretLength, memory.value);
  }

  /** Returns a copy of the stream. */
  copy() {
    const memory = this.#enter();
    const [record, secret] = [this.#recordThere(memory), this.#secretThere(memory)]; // before the other takes the place
    const other = new Stream(this.#kind);
    if (isXxh3(this.#kind)) other.#keepSecret(memory, secret);
    memory.put(other.#place.record, record);
    other.#hasOwnSecret = this.#hasOwnSecret;
    return other;
  }

  /** Frees the stream. Later calls of it are refused. */
  free() {
    if (this.#isThere()) this.#places.free(this.#place);
    this.#places = this.#place = this.#record = this.#secret = null;
  }

  #updateFrom(start, length) {
    const memory = this.#enter();
    const { update } = this.#places;
    const { record } = this.#place;
    refuse(this.#secretLength === 0 ? update(record, start, length)
      : update(record, this.#secretAt(memory), this.#secretLength, start, length));
  }

  #startPlain(memory, { seed = 0n }) {
    const { twox_xxh32_start: start32, twox_xxh64_start: start64 } = memory.exports;
    if (this.#kind === "xxh32") start32(this.#place.record, Number(seed));
    else start64(this.#place.record, seed);
  }

  #startXxh3(memory, { seed, secret }) {
    const calls = memory.exports;
    const { record } = this.#place;
    if (secret === undefined) {
      calls.twox_xxh3_start_with_seed(record, this.#place.secret, seed ?? 0n);
      this.#secretLength = DERIVED_SECRET_LENGTH;
      return;
    }
    this.#keepSecret(memory, new Uint8Array(secret));
    this.#hasOwnSecret = true;
    const place = [this.#secretAt(memory), this.#secretLength];
    if (seed === undefined) refuse(calls.twox_xxh3_start_with_secret(record, ...place));
    else refuse(calls.twox_xxh3_start_with_seed_and_secret(record, seed, ...place));
  }

  #isThere() {
    return this.#place?.stream === this;
  }

  /** Returns the memory, in which the stream is with its secret. */
  #enter() {
    if (this.#places === null) throw new TwoxHashError("freed", "The stream was freed.");
    const memory = loadedModule();
    if (this.#place.stream !== this) {
      this.#takePlace(memory);
      memory.put(this.#place.record, this.#record);
      if (this.#secretLength > 0) this.#keepSecret(memory, this.#secret);
    }
    return memory;
  }

  /** Takes a place. The stream that was there keeps its bytes itself from now on. */
  #takePlace(memory) {
    const place = this.#places.take();
    if (place.stream !== null) place.stream.#leave(memory);
    place.stream = this;
    this.#place = place;
  }

  #leave(memory) {
    this.#record = this.#recordThere(memory);
    if (this.#secretLength > 0) this.#secret ??= this.#secretThere(memory);
  }

  #recordThere(memory) {
    const { record } = this.#place;
    return memory.bytes.slice(record, record + this.#places.length);
  }

  /** Keeps bytes that nobody else changes as the secret, and copies them next to the stream if they fit there. */
  #keepSecret(memory, secret) {
    this.#secret = secret;
    this.#secretLength = secret.length;
    if (secret.length <= SHORT_SECRET_LENGTH) memory.put(this.#place.secret, secret);
  }

  #secretThere(memory) {
    return this.#secret ?? memory.bytes.slice(this.#place.secret, this.#place.secret + this.#secretLength);
  }

  /** Returns the address of the secret: a long one is written there again after another one was. */
  #secretAt(memory) {
    if (this.#secretLength <= SHORT_SECRET_LENGTH) return this.#place.secret;
    memory.holdSecret(this.#secret);
    return memory.secret;
  }
}

/**
 * Hashes the same chunk with several streams, copying it to the module once. If one of them was freed, none hashes it.
 *
 * @param {Iterable<Stream>} streams
 * @param {string | BufferSource} piece
 */
export function updateAll(streams, piece) {
  if (typeof streams?.[Symbol.iterator] !== "function") {
    throw new TwoxHashError("input", `The streams must be iterable. Received ${nameOf(streams)}.`);
  }
  const all = [...streams];
  all.forEach(refuseUnlessOpen);
  takePiece(all, piece);
}

/** Hashes a chunk with streams. No code of a caller runs meanwhile, so that the chunk keeps its length. */
function takePiece(streams, piece) {
  const memory = loadedModule();
  const input = asInput(piece);
  const whole = lengthOf(input);
  let at = 0;
  do {
    const { end, length } = memory.putPiece(input, whole, at);
    for (const stream of streams) updateFromMemory(stream, memory.chunk, length);
    at = end;
  } while (at < whole);
}

// ---- saved states

// A state is a head, the stream's record, and the XXH64 of both. The record is that of the module's memory, of XXH3 with
// the last stripe. The head is the mark with the format's version, the number of the hash among KINDS, whether the
// caller's secret is needed, six zeros, and the XXH64 of that secret. Numbers are little-endian.
const MARK = encoder.encode("twoxhsh1");
const HEAD_BYTES = 24;
const KIND_AT = 8;
const NEEDS_SECRET_AT = 9;
const DIGEST_OF_SECRET_AT = 16;
const CHECK_BYTES = 8;

/** The offsets of the number of seeds and of the seed in a record of XXH3: 1 and a seed, or 0 for only a secret. */
const SEEDS_AT = 0;
const SEED_AT = 8;

/** The padding bytes of a record. */
const PADDING = { xxh32: [44, 48] };

/**
 * A saved record of XXH3 has the last stripe taken before the number of stripes, and the two numbers of bytes behind the
 * buffer, as records of earlier versions did. In memory the numbers are before the buffer, and only a buffer with fewer
 * bytes than a stripe has the last stripe: as its end. Elsewhere it has no meaning.
 */
const STRIPE_BYTES = 64;
const STRIPES_AT = 88;
const BYTES_AT = 96;
const BUFFER_AT = 112;

function toSavedRecord(kind, record) {
  if (!isXxh3(kind)) return record;
  const lastStripe = record.subarray(-STRIPE_BYTES);
  return joined(record.subarray(0, STRIPES_AT), lastStripe, record.subarray(STRIPES_AT, BYTES_AT),
    record.subarray(BUFFER_AT), record.subarray(BYTES_AT, BUFFER_AT));
}

function fromSavedRecord(kind, saved) {
  if (!isXxh3(kind)) return saved;
  const end = saved.subarray(STRIPES_AT + STRIPE_BYTES);
  const stripes = BYTES_AT - STRIPES_AT;
  const bytes = BUFFER_AT - BYTES_AT;
  return joined(saved.subarray(0, STRIPES_AT), end.subarray(0, stripes), end.subarray(-bytes),
    end.subarray(stripes, -bytes));
}

function joined(...parts) {
  const whole = new Uint8Array(parts.reduce((length, part) => length + part.length, 0));
  parts.reduce((at, part) => (whole.set(part, at), at + part.length), 0);
  return whole;
}

function savedOf(kind, record, digestOfSecret) {
  const saved = new Uint8Array(HEAD_BYTES + record.length + CHECK_BYTES);
  const view = new DataView(saved.buffer);
  saved.set(MARK);
  saved[KIND_AT] = KINDS.indexOf(kind);
  if (digestOfSecret !== undefined) {
    saved[NEEDS_SECRET_AT] = 1;
    view.setBigUint64(DIGEST_OF_SECRET_AT, digestOfSecret, true);
  }
  saved.set(record, HEAD_BYTES);
  saved.subarray(HEAD_BYTES).fill(0, ...(PADDING[kind] ?? [0, 0]));
  view.setBigUint64(saved.length - CHECK_BYTES, xxh64(saved.subarray(0, -CHECK_BYTES)), true);
  return saved;
}

/** Parses a saved state, if its form is valid. The module tests whether bytes lead to its record. */
function readSaved(memory, saved) {
  const view = new DataView(saved.buffer, saved.byteOffset, saved.byteLength);
  if (saved.length < HEAD_BYTES || MARK.some((byte, i) => saved[i] !== byte)) throw notAState("it lacks the mark");
  const kind = KINDS[saved[KIND_AT]];
  if (kind === undefined) throw notAState("its hash is unknown");
  const length = HEAD_BYTES + memory.places[FAMILY[kind]].length + (isXxh3(kind) ? STRIPE_BYTES : 0) + CHECK_BYTES;
  if (saved.length !== length) throw notAState(`it has ${saved.length} bytes, not the ${length} of ${kind}`);
  const record = new Uint8Array(saved.subarray(HEAD_BYTES, length - CHECK_BYTES));
  const digestOfSecret = saved[NEEDS_SECRET_AT] ? view.getBigUint64(DIGEST_OF_SECRET_AT, true) : undefined;
  if (!sameBytes(savedOf(kind, record, digestOfSecret), saved)) throw notAState("it was changed");
  return { kind, record: fromSavedRecord(kind, record), digestOfSecret, seed: seedIn(kind, record, digestOfSecret) };
}

/** Returns the seed from which the secret of a stream of XXH3 is derived again; undefined if there is no need. */
function seedIn(kind, record, digestOfSecret) {
  if (!isXxh3(kind)) {
    if (digestOfSecret !== undefined) throw notAState(`${kind} takes no secret`);
    return undefined;
  }
  const view = new DataView(record.buffer);
  const seeds = view.getBigUint64(SEEDS_AT, true);
  if (seeds > 1n) throw notAState(`it has ${seeds} seeds`);
  if (digestOfSecret !== undefined) return undefined;
  if (seeds === 0n) throw notAState("it has neither a seed nor a secret");
  return view.getBigUint64(SEED_AT, true);
}

function sameBytes(left, right) {
  return left.length === right.length && left.every((byte, i) => byte === right[i]);
}

function notAState(why) {
  return new TwoxHashError("state", `Not a saved state: ${why}.`);
}

function secretText(given, needed) {
  if (needed === undefined) return "The saved stream has no secret, but one was passed.";
  if (given === undefined) return "The saved stream needs the secret that it was started with.";
  return "The saved stream was started with another secret.";
}
