/** The tests of the entry with the names of xxhash-wasm, on test cases of the reference library. */
import { milliseconds, vectorsOf } from "./module_tests.js";

const STRIDE = 20;

/** True if every call returns the test case's value, for bytes and, if the bytes are text, for text. */
function isRight(calls, vector) {
  const bits = vector.kind === "xxh32" ? 32 : 64;
  const seed = bits === 32 ? Number(vector.seed) : vector.seed;
  const [raw, digits, create, load] = [`h${bits}Raw`, `h${bits}ToString`, `create${bits}`, `load${bits}`].map((name) => calls[name]);
  const { input } = vector;
  const stream = create(seed).update(input.subarray(0, vector.length >> 1));
  const values = [raw(input, seed), stream.update(input.subarray(vector.length >> 1)).digest(), load(stream.save()).digest()];
  const types = values.every((value) => typeof value === (bits === 32 ? "number" : "bigint"));
  return types && values.every((value) => BigInt(value) === vector.answer) && digits(input, seed) === vector.digits;
}

/** The name and the code of the error of a call. */
function errorOf(call) {
  try {
    call();
    return "no error";
  } catch ({ name, code }) {
    return `${name} ${code}`;
  }
}

/** The errors of calls with wrong arguments, and the expected ones. */
function refusalsOf(calls) {
  const withSeed = (bits, seed) => [
    ...["", "Raw", "ToString"].map((end) => () => calls[`h${bits}${end}`]("text", seed)),
    () => calls[`create${bits}`](seed),
  ];
  const seeds = (bits, other) => [null, "7", {}, true, Symbol("seed"), other].flatMap((seed) => withSeed(bits, seed));
  return [
    ["seed", [...seeds(32, 7n), ...seeds(64, 7)]],
    ["input", [() => calls.h32(7), () => calls.h64(), () => calls.h64ToString({}), () => calls.create32().update(7)]],
    ["state", [() => calls.load32(), () => calls.load64(calls.create32().save())]],
  ].flatMap(([code, refused]) => refused.map((call) => [errorOf(call), `TwoxHashError ${code}`]));
}

function timeOf(call) {
  const start = milliseconds();
  call();
  return Math.ceil(milliseconds() - start);
}

/** The calls, with the table's text: one line of output each. */
export async function runXxhashWasmTests(xxhash, table) {
  const calls = await xxhash();
  const vectors = vectorsOf(table).filter(({ kind, seed, length }, i) => i % STRIDE === 0 && length < 5000 && seed !== undefined && (kind === "xxh32" || kind === "xxh64"));
  const wrong = vectors.filter((vector) => !isRight(calls, vector));
  const text = "a\u00e9\u20ac";
  const bytes = new TextEncoder().encode(text);
  const known = [
    calls.h32(text) === calls.h32Raw(bytes), calls.h64(text, 7n) === calls.h64Raw(bytes, 7n),
    calls.h64ToString("some bytes", 1234n) === "eab55659a496d78b", calls.h32ToString("some bytes", 1234) === "92f68bd9",
    calls.h32(text, -1) === calls.h32(text, 2 ** 32 - 1), calls.create64().update(text).digest() === calls.h64(text),
  ];
  const times = Array.from({ length: 4 }, () => timeOf(() => {
    for (let i = 0; i < 100_000; i += 1) calls.create64().update(bytes).digest();
  }));
  const notRefused = refusalsOf(calls).filter(([error, expected]) => error !== expected).map(([error]) => error);
  return [
    {
      name: "xxhash-wasm's names: wrong arguments are refused",
      ok: notRefused.length === 0,
      message: notRefused.join(", "),
    },
    { name: "xxhash-wasm's names: 400,000 streams, which nothing frees, take level time", ok: times[3] < 10 * Math.min(...times), message: `${times.join(", ")} ms` },
    { name: "xxhash-wasm's names: vectors of the reference library", ok: vectors.length > 100 && wrong.length === 0, message: wrong[0]?.line ?? `${vectors.length} vectors` },
    { name: "xxhash-wasm's names: text, seeds and digits", ok: known.every(Boolean), message: known.join(" ") },
  ];
}
