// SPDX-License-Identifier: MIT
/**
 * Types of streams.js: a stream that hashes what passes through it, and blobs. The browser's types are declared here
 * as far as they are used, so that a program needs no types of a browser.
 */
import type { Input, Key, Kind, Stream, ValueOf } from "./twox_hash.js";

/** The two sides of a `TransformStream`, if a program has the types of streams. */
type Ends = typeof globalThis extends { TransformStream: { prototype: { readable: infer R; writable: infer W } } }
  ? { readable: R; writable: W } : { readable: unknown; writable: unknown };

/** A `Blob` or `File`. */
export interface BlobLike {
  readonly size: number;
  slice(from?: number, to?: number): BlobLike;
  arrayBuffer(): Promise<ArrayBuffer>;
}

/** An `AbortSignal`. */
export interface SignalLike {
  readonly aborted: boolean;
  throwIfAborted(): void;
}

/** A `TransformStream` that passes bytes or text through unchanged, and returns their hash. */
export class HashingStream<K extends Kind = Kind> {
  constructor(kind: K, options?: Key);
  readonly readable: Ends["readable"];
  readonly writable: Ends["writable"];
  digest(): ValueOf<K>;
  digest<L extends Kind>(kind: L): ValueOf<L>;
}

export interface Reading {
  /** Called after each chunk. */
  progress?: (done: number, size: number) => void;
  /** If it is aborted, the reading ends with its reason. */
  signal?: SignalLike;
}

/** Returns the hash of a file or another blob, which is read in chunks. */
export function hashBlob<K extends Kind>(kind: K, blob: BlobLike, options?: Key & Reading): Promise<ValueOf<K>>;

export interface Taking<B extends BlobLike = BlobLike> extends Reading {
  /** The size of the blob when it was chosen: if it is different now, it fails with a `NotReadableError`. */
  size?: number;
  /** Reads the chunks of a blob that has several, for example on another thread. */
  read?: (blob: B, from: number, to: number) => Promise<ArrayBuffer>;
}

/** Hashes a blob with several streams, reading it once. */
export function takeBlob<B extends BlobLike>(streams: Iterable<Stream>, blob: B, options?: Taking<B>): Promise<void>;
