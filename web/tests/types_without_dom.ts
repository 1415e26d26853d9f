// A program without the types of a browser or of Node. It is compiled and not run.
import { Hash, Input, Source, Stream, createHash, load, toHex, xxh3_128, xxh64 } from "twox_hash";
import * as inline from "twox_hash/inline";
import { HashingStream, hashBlob, takeBlob } from "twox_hash/streams";
import xxhash from "twox_hash/xxhash-wasm";

const sources: Source[] = ["twox_hash.wasm", new Uint8Array(0)];
const blob = {
  size: 4,
  slice: (from?: number, to?: number) => ({ ...blob, size: (to ?? 4) - (from ?? 0) }),
  arrayBuffer: async () => new ArrayBuffer(4),
};

export async function uses(input: Input): Promise<string> {
  await load(sources[0]);
  await inline.load();
  const hash: Hash = createHash("xxh64").update(input);
  const hashing = new HashingStream("xxh64");
  await takeBlob([new Stream("xxh32")], blob, { read: async (it, from, to) => it.slice(from, to).arrayBuffer() });
  const values: bigint[] = [xxh64(input), xxh3_128(input), await hashBlob("xxh64", blob), hashing.digest(), (await xxhash()).h64(input)];
  return values.map((value) => toHex(value, "xxh3_128")).join() + hash.digest("hex");
}

// @ts-expect-error: a number is no address
load(7);
// @ts-expect-error: a text is no blob
hashBlob("xxh64", "text");
