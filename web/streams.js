// SPDX-License-Identifier: MIT
/** Streams and files by their hash: the web's own types of input for twox_hash.js. */
import { Stream, TwoxHashError, updateAll } from "./twox_hash.js";

const PIECE_BYTES = 8 * 1024 * 1024;
const READS_AHEAD = 4;

/**
 * Passes bytes or text through unchanged, and returns their hash:
 *
 *     const hashing = new HashingStream("xxh3_64");
 *     await response.body.pipeThrough(hashing).pipeTo(file);
 *     hashing.digest();
 */
export class HashingStream extends TransformStream {
  #stream;

  /** Has the arguments of `Stream`. */
  constructor(kind, options) {
    const stream = new Stream(kind, options);
    super({
      transform(piece, controller) {
        stream.update(piece);
        controller.enqueue(piece);
      },
    });
    this.#stream = stream;
  }

  /** Returns the hash of what has passed so far, as `digest` of a `Stream`. */
  digest(kind) {
    return this.#stream.digest(kind);
  }
}

/**
 * Returns the hash of a file or another blob, which is read in chunks.
 *
 * @param {"xxh32" | "xxh64" | "xxh3_64" | "xxh3_128"} kind
 * @param {Blob} blob
 * @param {{ seed?: number | bigint, secret?: string | BufferSource, progress?: (done: number, size: number) => void,
 *     signal?: AbortSignal }} [options] `progress` is called after each chunk, and a signal that is aborted ends it
 *     with the signal's reason
 * @returns {Promise<number | bigint>}
 */
export async function hashBlob(kind, blob, options = {}) {
  const { progress, signal, ...key } = asOptions(options);
  const stream = new Stream(kind, key);
  try {
    await takeBlob([stream], blob, { progress, signal });
    return stream.digest();
  } finally {
    stream.free();
  }
}

/**
 * Hashes a blob with several streams, reading it once, with the same options except seed and secret. `size` is the
 * blob's size when it was chosen: if it is different now, it fails with a `NotReadableError`. `read` reads the
 * chunks of a blob that has several, for example on another thread; by default, this thread does.
 */
export async function takeBlob(streams, blob, options = {}) {
  refuseUnlessBlob(blob);
  const { progress, signal, size = blob.size, read = readHere } = asOptions(options);
  const all = asStreams(streams);
  let done = 0;
  signal?.throwIfAborted();
  for await (const piece of piecesOf(blob, size, size > PIECE_BYTES ? read : readHere)) {
    signal?.throwIfAborted();
    updateAll(all, piece);
    done += piece.byteLength;
    progress?.(done, size);
  }
}

function asOptions(options) {
  if (options !== null && typeof options === "object") return options;
  throw new TwoxHashError("options", "The options must be an object.");
}

function refuseUnlessBlob(blob) {
  if (typeof blob?.slice === "function" && typeof blob.arrayBuffer === "function" && blob.size >= 0) return;
  throw new TwoxHashError("input", "The input must be a Blob or a File.");
}

/** Returns the streams as an array: an iterable may have them only once. Refuses other objects and freed streams. */
function asStreams(streams) {
  const all = typeof streams?.[Symbol.iterator] === "function" ? [...streams] : streams;
  updateAll(all, "");
  return all;
}

/** The blob's bytes in chunks. The next ones are read while one is hashed. */
async function* piecesOf(blob, size, read) {
  const reads = [];
  let at = 0;
  const readOn = () => {
    if (at >= size) return;
    const next = readWhole(read, blob, at, Math.min(at + PIECE_BYTES, size));
    next.catch(() => {}); // a failure is handled where the chunk is awaited, if it still is
    reads.push(next);
    at += PIECE_BYTES;
  };
  for (let i = 0; i < READS_AHEAD; i += 1) readOn();
  while (reads.length > 0) {
    const piece = await reads.shift();
    readOn();
    yield piece;
  }
  if (blob.size !== size) throw changed();
}

function readHere(blob, from, to) {
  return blob.slice(from, to).arrayBuffer();
}

async function readWhole(read, blob, from, to) {
  const bytes = await read(blob, from, to);
  if (bytes.byteLength !== to - from) throw changed();
  return bytes;
}

function changed() {
  return new DOMException("The file has another size than when it was chosen.", "NotReadableError");
}
