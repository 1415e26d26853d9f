// SPDX-License-Identifier: MIT
/** A hash with the API of Node's `crypto.Hash`. */
import { Transform } from "node:stream";
import { Stream, TwoxHashError, toBytes } from "./twox_hash.js";

/**
 * A hash that is updated, or that a stream is piped into. As with `crypto.Hash` its digest finalizes it. After a
 * stream that was piped into it has ended, the digest can be read from it, and `digest` also returns it.
 */
export class Hash extends Transform {
  #stream;
  #value; // of a stream that was piped into it and has ended

  /** For `createHash` and `copy`. */
  constructor(stream) {
    if (!(stream instanceof Stream)) throw new TwoxHashError("kind", "Use createHash to create a Hash, not new.");
    super();
    this.#stream = stream;
  }

  /**
   * Hashes bytes, or text in an encoding of Node's, UTF-8 by default.
   *
   * @returns {this}
   */
  update(piece, encoding = "utf8") {
    this.#open().update(typeof piece === "string" ? bytesOf(piece, encoding) : piece);
    return this;
  }

  /**
   * Returns the digest, the highest byte first: as text in an encoding such as "hex", or as a Buffer, also if Node has
   * no such encoding. Finalizes the hash.
   */
  digest(encoding) {
    const bytes = this.#value ?? this.#end();
    this.#value = undefined;
    return Buffer.isEncoding(encoding) ? bytes.toString(encoding) : bytes;
  }

  /** Returns a copy in the same state. */
  copy() {
    return new Hash(this.#open().copy());
  }

  #open() {
    if (this.#stream === undefined) throw new TwoxHashError("freed", "Digest already called.");
    return this.#stream;
  }

  #end() {
    const stream = this.#open();
    const bytes = Buffer.from(toBytes(stream.digest(), stream.kind));
    stream.free();
    this.#stream = undefined;
    return bytes;
  }

  _transform(piece, encoding, done) {
    this.#attempt(() => this.update(piece, encoding), done);
  }

  _flush(done) {
    this.#attempt(() => {
      this.#value = this.#end();
      this.push(Buffer.from(this.#value));
    }, done);
  }

  #attempt(call, done) {
    try {
      call();
      done();
    } catch (error) {
      done(error);
    }
  }
}

/** Returns text unchanged if its encoding is UTF-8, and its bytes in another encoding. */
function bytesOf(text, encoding) {
  if (!Buffer.isEncoding(encoding) || /^utf-?8$/i.test(encoding)) return text;
  if (/^hex$/i.test(encoding) && text.length % 2) {
    throw new TwoxHashError("input", `There are ${text.length} hexadecimal digits. Each byte needs two.`);
  }
  return Buffer.from(text, encoding);
}

/**
 * Creates a hash as Node's `crypto.createHash` does.
 *
 * @param {"xxh32" | "xxh64" | "xxh3_64" | "xxh3_128"} kind
 * @param {{ seed?: number | bigint, secret?: string | ArrayBufferView }} [options]
 */
export function createHash(kind, options) {
  return new Hash(new Stream(kind, options));
}
