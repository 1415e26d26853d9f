/** The tests of streams.js, for Node and for a browser: each is one line of output. */
import { many } from "./module_tests.js";

/** The entry under test, and streams.js, as namespaces. */
let twox;
let streams;

function valueOf(digits) {
  return BigInt(`0x${digits}`);
}

/** The error that a promise ends with. */
async function errorOf(promise) {
  try {
    await promise;
    return { name: "no error" };
  } catch (error) {
    return error;
  }
}

async function collected(readable) {
  const pieces = [];
  for (const reader = readable.getReader(); ;) {
    const { done, value } = await reader.read();
    if (done) return new Uint8Array(await new Blob(pieces).arrayBuffer());
    pieces.push(value);
  }
}

const TESTS = {
  "a blob is hashed by one call, with its progress": async (digests) => {
    const blob = new Blob([many()]);
    const reports = [];
    const values = await Promise.all(twox.KINDS.map((kind) => streams.hashBlob(kind, blob, { progress: (...it) => reports.push(it) })));
    const wrong = twox.KINDS.filter((kind, i) => BigInt(values[i]) !== valueOf(digests[kind]));
    const isReported = reports.length === 4 && reports.every(([done, size]) => done === blob.size && size === blob.size);
    return { ok: wrong.length === 0 && isReported, message: wrong.join(" ") };
  },
  "a blob in many pieces, with a seed": async () => {
    const part = many();
    const blob = new Blob(Array.from({ length: 20 }, () => part));
    const stream = new twox.Stream("xxh64", { seed: 7 });
    for (let i = 0; i < 20; i += 1) stream.update(part);
    const reports = [];
    const value = await streams.hashBlob("xxh64", blob, { seed: 7, progress: (done) => reports.push(done) });
    return { ok: value === stream.digest() && reports.length === 3 && reports.at(-1) === blob.size, message: `${reports.length} pieces` };
  },
  "an empty blob": async () => ({ ok: await streams.hashBlob("xxh64", new Blob([])) === twox.xxh64("") }),
  "a signal stops it, before and between two pieces": async () => {
    const blob = new Blob(Array.from({ length: 20 }, many));
    const before = await errorOf(streams.hashBlob("xxh64", blob, { signal: AbortSignal.abort() }));
    const stop = new AbortController();
    const reports = [];
    const progress = (done) => reports.push(done) && stop.abort("enough");
    const between = await errorOf(streams.hashBlob("xxh64", blob, { signal: stop.signal, progress }));
    return { ok: before.name === "AbortError" && between === "enough" && reports.length === 1, message: `${before.name} ${between}` };
  },
  "wrong options are refused": async () => {
    const refused = [["kind", "xxh128", {}], ["seed", "xxh64", { seed: -1 }], ["options", "xxh64", { sead: 1 }], ["secret", "xxh64", { secret: "s" }]];
    const codes = await Promise.all(refused.map(async ([, kind, options]) => (await errorOf(streams.hashBlob(kind, new Blob([]), options))).code));
    return { ok: codes.every((code, i) => code === refused[i][0]), message: codes.join(" ") };
  },
  "other inputs than blobs are refused": async () => {
    const others = ["text", new Uint8Array(5), new ArrayBuffer(5), new Set(), { size: 0 }, [], 7, null, undefined];
    const freed = new twox.Stream("xxh64");
    freed.free();
    const calls = [
      ...others.flatMap((it) => [["input", streams.hashBlob("xxh64", it)], ["input", streams.takeBlob([], it)]]),
      ...[7, null, "text"].map((it) => ["options", streams.hashBlob("xxh64", new Blob([]), it)]),
      ...[7, null, [7]].map((it) => ["input", streams.takeBlob(it, new Blob([]))]),
      ["freed", streams.takeBlob([freed], new Blob([]))],
    ];
    const codes = await Promise.all(calls.map(async ([, promise]) => (await errorOf(promise)).code));
    return { ok: codes.every((code, i) => code === calls[i][0]), message: codes.join(" ") };
  },
  "a blob in many pieces, for streams that are listed once": async () => {
    const part = many();
    const blob = new Blob(Array.from({ length: 20 }, () => part));
    const [stream, value] = [new twox.Stream("xxh64"), await streams.hashBlob("xxh64", blob)];
    await streams.takeBlob([stream].values(), blob);
    return { ok: stream.digest() === value };
  },
  "a blob of another size than was said": async () => {
    const error = await errorOf(streams.takeBlob([], new Blob(["four"]), { size: 5 }));
    return { ok: error.name === "NotReadableError", message: error.name };
  },
  "a stream that passes on what it hashes": async (digests) => {
    const input = many();
    const wrong = [];
    for (const kind of twox.KINDS) {
      const hashing = new streams.HashingStream(kind);
      const passed = await collected(new Blob([input]).stream().pipeThrough(hashing));
      const isPassed = passed.length === input.length && passed.every((byte, i) => byte === input[i]);
      if (!isPassed || BigInt(hashing.digest()) !== valueOf(digests[kind])) wrong.push(kind);
    }
    return { ok: wrong.length === 0, message: wrong.join(" ") };
  },
};

/** Runs all tests, and returns a line for each. `digests` are xxhsum's digests of `many()`, by the kind. */
export async function runStreamTests(entry, streamsEntry, digests) {
  twox = entry;
  streams = streamsEntry;
  await twox.load();
  const lines = [];
  for (const [name, test] of Object.entries(TESTS)) lines.push(await run(name, test, digests));
  return lines;
}

async function run(name, test, digests) {
  try {
    return { name, ...(await test(digests)) };
  } catch (error) {
    return { name, ok: false, message: String(error.stack ?? error) };
  }
}
