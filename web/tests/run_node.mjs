// Runs the tests in Node, of entries that the caller imports, and prints their lines as JSON. `digests` are xxhsum's
// digests of the input that module_tests.js names many(), as JSON by the kind.
import { readFile } from "node:fs/promises";
import { runTests } from "./module_tests.js";
import { runNodeHashTests } from "./node_hash_tests.mjs";
import { runStreamTests } from "./stream_tests.js";
import { runXxhashWasmTests } from "./xxhash_wasm_tests.js";

// The stack of 1 MiB begins a memory and is used from its upper end. wasm-opt assumes that the first 1,024 bytes of a
// memory are never used, and everything except the upper 64 KiB of the stack is tested here.
const UNUSED_BYTES = (1024 - 64) * 1024;
const MARK = 0xa5;
const instances = [];
const { instantiate } = WebAssembly;
WebAssembly.instantiate = async (...args) => {
  const instance = await instantiate(...args);
  instances.push(instance.instance ?? instance);
  new Uint8Array(instances.at(-1).exports.memory.buffer, 0, UNUSED_BYTES).fill(MARK);
  return instance;
};

function stackIsShort() {
  const isUnused = ({ exports }) => new Uint8Array(exports.memory.buffer, 0, UNUSED_BYTES).every((byte) => byte === MARK);
  return { name: "calls use 64 KiB of the stack at most", ok: instances.length > 0 && instances.every(isUnused) };
}

/** Addresses and lengths are passed as numbers of 32 bits; JavaScript has the upper half as negative ones too. */
function largeNumbersCross({ Stream }) {
  const { memory, twox_xxh3_64: hash } = instances[0].exports;
  const [start, length] = [memory.buffer.byteLength, 2 ** 31 + 5];
  memory.grow(2 ** 15 + 1);
  const far = new Uint8Array(memory.buffer, start, length);
  far.set([1, 2, 3], length - 3);
  const isRight = (from) => BigInt.asUintN(64, hash(start + from, length - from)) === new Stream("xxh3_64").update(far.subarray(from)).digest();
  return { name: "an input of 2 GiB, and one that lies above", ok: isRight(0) && isRight(2 ** 31 - 1) };
}

/** Streams that nobody frees take no more memory of the module, and little of the engine. */
function memoryIsLevel({ Stream, KINDS }) {
  const sizes = () => instances.map(({ exports }) => exports.memory.buffer.byteLength).join();
  const [before, heap] = [sizes(), process.memoryUsage().rss];
  for (let i = 0; i < 200_000; i += 1) new Stream(KINDS[i % 4]).update("some bytes").digest();
  const grown = Math.round((process.memoryUsage().rss - heap) / 1e6);
  return { name: "200,000 streams that are never freed, in level memory", ok: sizes() === before && grown < 200, message: `${before}, ${sizes()}; ${grown} MB more of the engine's` };
}

const readTable = () => readFile(new URL("../../oracle/vectors.txt", import.meta.url), "utf8");

/**
 * All tests of the entry, and of the others that are passed: streams.js, the entry for Node, that of xxhash-wasm's
 * names.
 */
export async function report(digests, { entry, streams, node, xxhash }) {
  const [table, values] = [await readTable(), JSON.parse(digests)];
  const lines = await runTests(entry, table, values);
  if (streams) lines.push(...await runStreamTests(entry, streams, values));
  if (node) lines.push(...await runNodeHashTests(node, values));
  if (xxhash) lines.push(...await runXxhashWasmTests(xxhash, table));
  lines.push(stackIsShort(), memoryIsLevel(entry), largeNumbersCross(entry));
  console.log(JSON.stringify({ lines, hasVectors: entry.hasVectors(), version: process.versions.node }));
}
