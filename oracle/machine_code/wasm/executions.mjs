// Runs random calls of two modules side by side, and prints the first one whose results differ. Each line of standard
// input is a JSON object: {"modules": [bytes, bytes] in hexadecimal, "calls": number of calls, "seed": number}. Each
// line of the output is the call, or nothing if no result differs.
import { createInterface } from "node:readline";

const EDGES = [0, 1, 3, 4, 8, 9, 15, 16, 17, 31, 32, 33, 63, 64, 65, 96, 128, 129, 136, 160, 192, 240, 241, 255, 256,
  257, 320, 448, 512, 513, 576, 640, 1023, 1024, 1025, 1088, 2048, 2049];
const LONGEST = 40_000;
const STREAMS = ["xxh32", "xxh64", "xxh3"];
const WAYS = ["", "_with_seed", "_with_secret", "_with_seed_and_secret"];
const FIELDS = [0n, 1n, 64n, 512n, 2n ** 32n, 2n ** 63n, 2n ** 64n - 1n];

// A generator of random numbers (xorshift), so that both modules and each repetition get the same calls.
class Random {
  constructor(seed) {
    this.state = BigInt.asUintN(64, 0x9e3779b97f4a7c15n * BigInt(seed + 1));
  }
  word() {
    for (const shift of [13n, -7n, 17n]) {
      const moved = shift > 0n ? this.state << shift : this.state >> -shift;
      this.state = BigInt.asUintN(64, this.state ^ moved);
    }
    return this.state;
  }
  below(limit) {
    return Number(this.word() % BigInt(limit));
  }
  of(list) {
    return list[this.below(list.length)];
  }
  length(longest) {
    const near = Math.max(0, this.of(EDGES) + this.below(5) - 2);
    return Math.min(longest, [near, near, this.below(300), this.below(2600), this.below(longest + 1)][this.below(5)]);
  }
  seed() {
    return this.of([0n, 1n, this.word(), this.word()]);
  }
}

// A module's instance, and where a call's arguments are in its memory.
class Machine {
  constructor(bytes) {
    this.exports = new WebAssembly.Instance(new WebAssembly.Module(bytes), {}).exports;
    const begin = (Number(this.exports.__heap_base.value) + 63) & ~63;
    const places = { value: 0, record: 64, derived: 1088, secret: 1344, message: 2048 };
    for (const [name, at] of Object.entries(places)) this[name] = begin + at;
    const missing = this.message + LONGEST + 128 - this.exports.memory.buffer.byteLength;
    if (missing > 0) this.exports.memory.grow(Math.ceil(missing / 65536));
    this.bytes = Buffer.from(this.exports.memory.buffer);
  }
  // The result of a call, or "trap".
  call(name, args) {
    try {
      return String(this.exports[name](...args));
    } catch (error) {
      if (error instanceof WebAssembly.RuntimeError || error instanceof RangeError) return "trap";
      throw error;
    }
  }
  shown(at, length) {
    return this.bytes.toString("hex", at, at + length);
  }
}

// Calls an export on each machine, and throws if the results, the value or, of a refused call, the record differ.
class Pair {
  constructor(machines, random) {
    Object.assign(this, { machines, random });
  }
  call(name, args, length = 0) {
    const found = this.machines.map((machine) => {
      const before = machine.shown(machine.record, 1024);
      const result = machine.call(name, args.map((word) => (typeof word === "string" ? machine[word] : word)));
      const isUnchanged = machine.shown(machine.record, 1024) === before;
      return [result, machine.shown(machine.value, 64), (length > 0 || result !== "0") && isUnchanged].join(" ");
    });
    if (found[0] !== found[1]) throw new Error(`${name}(${args.join(", ")}): ${found.join(" / ")}`);
    return found[0].split(" ")[0];
  }
  write(place, bytes) {
    for (const machine of this.machines) bytes.copy(machine.bytes, machine[place]);
  }
  fill(place, length) {
    const bytes = Buffer.alloc(length + 8);
    for (let at = 0; at < length; at += 8) bytes.writeBigUInt64LE(this.random.word(), at);
    this.write(place, bytes.subarray(0, length));
  }
}

function secretOf(pair) {
  const { random } = pair;
  return ["secret", random.of([136, 192, 136 + random.below(200), 144 + random.below(8), random.below(136)])];
}

function oneShot(pair) {
  const { random } = pair, length = random.length(LONGEST), message = ["message", length];
  const plain = random.below(4);
  if (plain === 0) return pair.call("twox_xxh32", [Number(random.seed() & 0xffffffffn) | 0, ...message]);
  if (plain === 1) return pair.call("twox_xxh64", [random.seed(), ...message]);
  const way = random.of(WAYS), name = random.of(["twox_xxh3_64", "twox_xxh3_128"]);
  const seeds = way.includes("seed") ? [random.seed()] : [], secret = way.includes("secret") ? secretOf(pair) : [];
  const value = name.endsWith("128") || way.includes("secret") ? ["value"] : [];
  return pair.call(name + way, [...seeds, ...secret, ...message, ...value], 16);
}

// Starts a stream, and returns its further arguments, or null if it is refused.
function started(pair, family) {
  const { random } = pair;
  if (family !== "xxh3") {
    const seed = random.seed();
    pair.call(`twox_${family}_start`, ["record", family === "xxh32" ? Number(seed & 0xffffffffn) | 0 : seed]);
    return ["record"];
  }
  const way = random.of(WAYS.slice(1));
  if (way === "_with_seed") {
    pair.call(`twox_xxh3_start${way}`, ["record", "derived", random.seed()]);
    return ["record", "derived", 192];
  }
  const secret = secretOf(pair), seeds = way.includes("seed") ? [random.seed()] : [];
  return pair.call(`twox_xxh3_start${way}`, ["record", ...seeds, ...secret]) === "0" ? ["record", ...secret] : null;
}

// Changes a field of the record, which the next calls may refuse.
function damage(pair) {
  const { random } = pair, at = 8 * random.below(90), value = random.of(FIELDS), isAdded = random.below(2);
  for (const { bytes, record } of pair.machines) {
    const old = isAdded ? bytes.readBigUInt64LE(record + at) : 0n;
    bytes.writeBigUInt64LE(BigInt.asUintN(64, old + value), record + at);
  }
}

function stream(pair) {
  const { random } = pair, family = random.of(STREAMS), longest = random.of([40, 300, 1500, 7000]);
  pair.fill("record", 1024);
  const args = started(pair, family);
  if (!args) return;
  const widths = family === "xxh3" ? ["3_64", "3_128"] : [family.slice(3)];
  for (let left = 1 + random.below(6); left > 0; left -= 1) {
    if (random.below(12) === 0) damage(pair);
    pair.call(`twox_${family}_update`, [...args, "message", random.length(longest)]);
    for (const width of widths) pair.call(`twox_xxh${width}_digest`, [...args, "value"], 16);
  }
}

function firstDifference({ modules, calls, seed }) {
  const random = new Random(seed), machines = modules.map((bytes) => new Machine(Buffer.from(bytes, "hex")));
  const pair = new Pair(machines, random), contents = { message: LONGEST, secret: 512, derived: 256 };
  try {
    for (let number = 0; number < calls; number += 1) {
      if (number % 64 === 0) for (const [place, length] of Object.entries(contents)) pair.fill(place, length);
      if (random.below(2)) oneShot(pair);
      else stream(pair);
    }
  } catch (error) {
    return error.message;
  }
  return "";
}

for await (const line of createInterface({ input: process.stdin })) console.log(firstDifference(JSON.parse(line)));
