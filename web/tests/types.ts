// Every name of the package's types, used as on its pages; and wrong uses, which a compiler must refuse. It is compiled
// and not run.
import {
  Bytes, ErrorCode, Hash, Input, KINDS, Key, Kind, SECRET_MINIMUM_LENGTH, Seed, Source, Stream, TwoxHashError, ValueOf, createHash,
  hasVectors, isSupported, load, toBytes, toHex, updateAll, xxh3_128, xxh3_64, xxh32, xxh64,
} from "twox_hash";
import * as inline from "twox_hash/inline";
import { HashingStream, Reading, hashBlob, takeBlob } from "twox_hash/streams";
import xxhash, { XXHash, XXHashAPI, XXHashState } from "twox_hash/xxhash-wasm";

const bytes: Bytes = new Uint8Array(SECRET_MINIMUM_LENGTH);
const inputs: Input[] = ["text", bytes];
const seed: Seed = 1234n;
const key: Key = { seed, secret: bytes };
const sources: Source[] = ["twox_hash.wasm", new URL("file:///twox_hash.wasm"), new Uint8Array(0), new Response()];

export async function uses(): Promise<string[]> {
  if (!isSupported()) return [];
  await load();
  await load(sources[0]);
  await load(async (vectors: boolean) => sources[vectors === hasVectors() ? 0 : 1]);
  await inline.load();
  const values: [bigint, Kind][] = [
    [xxh64(bytes, seed), "xxh64"], [xxh3_64(inputs[0]), "xxh3_64"], [xxh3_128(new ArrayBuffer(8), key), "xxh3_128"],
    [xxh3_128("text", { secret: "text" }), "xxh3_128"], [inline.xxh64(bytes), KINDS[1]],
  ];
  const short: number = xxh32("text", 7);
  return [toHex(short, "xxh32"), String(toBytes(short, "xxh32").length), ...values.map(([value, kind]) => toHex(value, kind))];
}

export function streams(): bigint {
  const stream: Stream<"xxh3_128"> = new Stream("xxh3_128", key).update(bytes).update("text").update(new DataView(new ArrayBuffer(3)));
  const saved: Uint8Array = stream.save();
  const other: Stream = Stream.load(saved, { secret: bytes });
  updateAll(new Set([stream, other, stream.copy()]), "text");
  const short: number = new Stream("xxh32").digest();
  const value: bigint = stream.digest() + stream.digest("xxh3_64") + BigInt(short);
  stream.free();
  const kind: Kind = other.kind;
  const any: number | bigint = other.digest(kind);
  return value + BigInt(any);
}

export async function blobs(signal: AbortSignal): Promise<bigint> {
  const reading: Reading = { signal, progress: (done, size) => console.log(done / size) };
  const hashing = new HashingStream("xxh64", { seed });
  await new Blob(["text"]).stream().pipeThrough(hashing).pipeTo(new WritableStream());
  await takeBlob([new Stream("xxh32")], new Blob([]), { ...reading, size: 0 });
  const value: ValueOf<"xxh3_64"> = await hashBlob("xxh3_64", new Blob(["text"]), { ...reading, secret: bytes });
  return hashing.digest() + value;
}

export function nodes(): string {
  const hash: Hash = createHash("xxh64", { seed }).update("text").update("ff", "hex");
  const digest: Uint8Array = hash.copy().digest();
  return hash.digest("hex") + digest.length;
}

export async function names(): Promise<bigint> {
  const calls: XXHashAPI = await xxhash();
  const stream: XXHash<bigint> = calls.create64(7n).update("text");
  const state: XXHashState = stream.save();
  const short: number = calls.h32("text", 7) + calls.h32Raw(new Uint8Array(0)) + calls.create32().update("text").digest();
  return calls.h64(calls.h32ToString("text")) + calls.load64(state).digest() + BigInt(short);
}

export function codeOf(error: unknown): ErrorCode | undefined {
  return error instanceof TwoxHashError ? error.code : undefined;
}

export function wrongUses(stream: Stream): void {
  // @ts-expect-error: a number is neither text nor bytes
  xxh64(7);
  // @ts-expect-error: a seed is a number
  xxh64(bytes, "7");
  // @ts-expect-error: XXH3 takes its seed among options
  xxh3_64(bytes, 7n);
  // @ts-expect-error: there is no such option
  xxh3_64(bytes, { sead: 7n });
  // @ts-expect-error: there is no such hash
  new Stream("xxh128");
  // @ts-expect-error: the hash determines the number of digits
  toHex(7n);
  // @ts-expect-error: a value of 64 bits is a bigint
  toHex(7, "xxh64");
  // @ts-expect-error: the seed is part of the state
  Stream.load(new Uint8Array(0), { seed: 7n });
  // @ts-expect-error: it is fixed
  stream.kind = "xxh64";
  // @ts-expect-error: the bytes are inside
  inline.load("twox_hash.wasm");
  // @ts-expect-error: XXH64 returns a bigint
  const short: number = xxh64("text");
  // @ts-expect-error: there is no such option
  hashBlob("xxh64", new Blob([]), { signals: [] });
}
