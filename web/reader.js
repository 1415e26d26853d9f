// SPDX-License-Identifier: MIT
/**
 * Reads chunks of files on another thread than the one that hashes them. A browser copies what it has read on the
 * requesting thread, so a thread that reads and hashes does neither during the other.
 */

/** Returns the bytes of a blob in a range, as a promise, read on this thread. */
export function readPiece(blob, from, to) {
  return blob.slice(from, to).arrayBuffer();
}

/** A thread that reads. If a worker can't have one of its own, the requesting thread reads. */
export class Reader {
  #worker = null;
  #asked = new Map();
  #count = 0;

  constructor() {
    if (typeof Worker !== "function") return;
    this.#worker = new Worker(new URL("reader_worker.js", import.meta.url), { type: "module" });
    this.#worker.onmessage = ({ data }) => this.#answer(data);
    this.#worker.onerror = () => this.#readHere();
  }

  /** Returns the bytes of a blob in a range, as a promise. */
  read(blob, from, to) {
    if (this.#worker === null) return readPiece(blob, from, to);
    const number = ++this.#count;
    this.#worker.postMessage({ number, blob, from, to });
    return new Promise((resolve, reject) => this.#asked.set(number, { blob, from, to, resolve, reject }));
  }

  #answer({ number, bytes, name, message }) {
    const { resolve, reject } = this.#asked.get(number);
    this.#asked.delete(number);
    if (bytes) resolve(bytes);
    else reject(new DOMException(message, name));
  }

  /** Continues without the thread, which couldn't be started. */
  #readHere() {
    this.#worker = null;
    for (const { blob, from, to, resolve } of this.#asked.values()) resolve(readPiece(blob, from, to));
    this.#asked.clear();
  }
}
