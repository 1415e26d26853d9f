// SPDX-License-Identifier: MIT
/**
 * Hashes what the page sends it, on another thread than the page's. It receives
 *
 *     { type: "hash", job, blob, size, seed, secret }    seed a BigInt or undefined, secret bytes or undefined
 *     { type: "stop", job }
 *
 * and replies, for a job, with any number of `progress` and then one of `done`, `stopped` and `failed`. Jobs run
 * concurrently, one chunk of each in turn. First of all it sends `ready`, with the name of the module, or
 * `unsupported`. The size is the blob's size when it was chosen: if it is different now, the job fails.
 */
import { Reader } from "./reader.js";
import { takeBlob } from "./streams.js";
import { Stream, hasVectors, load, toHex } from "./twox_hash.js";

const MILLISECONDS_BETWEEN_REPORTS = 80;

const reader = new Reader();
const read = (...piece) => reader.read(...piece);

/** Aborts a job, by its number. */
const stops = new Map();
const ready = load().then(
  () => postMessage({ type: "ready", hasVectors: hasVectors() }),
  (error) => postMessage({ type: "unsupported", message: error.message }),
);

onmessage = async ({ data }) => {
  await ready;
  if (data.type === "stop") stops.get(data.job)?.abort();
  else run(data);
};

async function run({ job, blob, size, seed, secret }) {
  const stop = new AbortController();
  stops.set(job, stop);
  let streams;
  try {
    streams = streamsFor(seed, secret);
    const start = performance.now();
    await takeBlob(Object.values(streams), blob, { size, read, signal: stop.signal, progress: reportsOf(job) });
    const milliseconds = performance.now() - start;
    postMessage({ type: "done", job, milliseconds, digests: digestsOf(streams) });
  } catch (error) {
    if (stop.signal.aborted) postMessage({ type: "stopped", job });
    else postMessage({ type: "failed", job, name: error.name, message: error.message });
  } finally {
    stops.delete(job);
    for (const stream of Object.values(streams ?? {})) stream.free();
  }
}

/** One stream for each hash that takes the seed; that of XXH3 has both widths. */
function streamsFor(seed, secret) {
  const streams = { xxh64: new Stream("xxh64", { seed }), xxh3: new Stream("xxh3_64", { seed, secret }) };
  if (seed === undefined || seed < 2n ** 32n) streams.xxh32 = new Stream("xxh32", { seed });
  return streams;
}

function digestsOf({ xxh32, xxh64, xxh3 }) {
  return {
    xxh32: xxh32 && toHex(xxh32.digest(), "xxh32"),
    xxh64: toHex(xxh64.digest(), "xxh64"),
    xxh3_64: toHex(xxh3.digest("xxh3_64"), "xxh3_64"),
    xxh3_128: toHex(xxh3.digest("xxh3_128"), "xxh3_128"),
  };
}

/** Reports the progress of a job to the page, not too often. */
function reportsOf(job) {
  let reported = performance.now();
  return (done) => {
    if (performance.now() - reported < MILLISECONDS_BETWEEN_REPORTS) return;
    reported = performance.now();
    postMessage({ type: "progress", job, done });
  };
}
