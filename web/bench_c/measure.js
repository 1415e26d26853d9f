/**
 * Benchmarks modules against each other, in Node and in a page: calls from JavaScript over bytes in a module's
 * memory, one-shots and streams in chunks. All modules take turns in each round, so that a slow machine slows all of
 * them. Turns are short: on a busy machine most turns of 8 ms are interrupted once, which makes their median
 * useless.
 */
const LENGTHS = [16, 240, 1024, 65536, 1 << 20];
const PIECES = [1000, 65536];
const KINDS = ["xxh32", "xxh64", "xxh3_64", "xxh3_128"];
const TOTAL = 1 << 20;
const PAGE_BYTES = 65536;
const DERIVED_SECRET_LENGTH = 192;
const WARM_MILLISECONDS = 60;
const TURN_MILLISECONDS = 0.4;

/** Drawn once, so that every module has the same bytes. */
function generated(length) {
  const bytes = new Uint8Array(length);
  let x = 1;
  for (let i = 0; i < length; i += 1) {
    x = (Math.imul(x, 1664525) + 1013904223) | 0;
    bytes[i] = x >>> 24;
  }
  return bytes;
}

/** A module with the input in its memory. */
class Module {
  constructor({ name, bytes }) {
    const { exports } = new WebAssembly.Instance(new WebAssembly.Module(bytes), {});
    this.name = name;
    this.calls = exports;
    this.isOurs = exports.twox_xxh64 !== undefined;
    const start = Math.ceil(Number(exports.__heap_base.value) / 4096) * 4096;
    [this.value, this.record, this.secret, this.input] = [start, start + 256, start + 1024, start + 4096];
    const pages = Math.ceil((this.input + TOTAL - exports.memory.buffer.byteLength) / PAGE_BYTES);
    if (pages > 0) exports.memory.grow(pages);
    new Uint8Array(exports.memory.buffer).set(generated(TOTAL), this.input);
    this.view = new DataView(exports.memory.buffer, this.value, 16);
  }

  /** A call without arguments that returns the hash of the first bytes. */
  oneshot(kind, length) {
    const { input, value } = this;
    const call = this.calls[`${this.isOurs ? "twox" : "peer"}_${kind}`];
    if (kind === "xxh32") return () => call(0, input, length);
    if (kind === "xxh64") return () => call(0n, input, length);
    return kind === "xxh3_64" ? () => call(input, length) : () => call(input, length, value);
  }

  /** A call that returns the hash of chunks of that length. */
  stream(kind, size) {
    const total = size < 5000 ? TOTAL / 4 : TOTAL;
    const pieces = [];
    for (let at = 0; at < total; at += size) {
      pieces.push([this.input + at, Math.min(size, total - at)]);
    }
    if (!this.isOurs) return this.peerStream(kind, pieces);
    return kind === "xxh3_64" ? this.ourStreamOfXxh3(pieces) : this.ourPlainStream(kind, pieces);
  }

  // No call spreads its arguments, which takes 50 ns.
  ourStreamOfXxh3(pieces) {
    const { record, secret, value, view } = this;
    const { twox_xxh3_start_with_seed: start, twox_xxh3_update: update, twox_xxh3_64_digest: digest } = this.calls;
    return () => {
      start(record, secret, 0n);
      for (const [at, length] of pieces) update(record, secret, DERIVED_SECRET_LENGTH, at, length);
      digest(record, secret, DERIVED_SECRET_LENGTH, value);
      return view.getBigInt64(0, true);
    };
  }

  ourPlainStream(kind, pieces) {
    const { record, value, view } = this;
    const [start, update, digest] = ["start", "update", "digest"].map((name) => this.calls[`twox_${kind}_${name}`]);
    const seed = kind === "xxh32" ? 0 : 0n;
    return () => {
      start(record, seed);
      for (const [at, length] of pieces) update(record, at, length);
      digest(record, value);
      return kind === "xxh32" ? view.getInt32(0, true) : view.getBigInt64(0, true);
    };
  }

  peerStream(kind, pieces) {
    const [start, update, digest] = ["start", "update", "digest"].map((name) => this.calls[`peer_${kind}_${name}`]);
    return () => {
      start();
      for (const [at, length] of pieces) update(at, length);
      return digest();
    };
  }

  /** The result of a call, in one form for all. */
  answer(kind, call) {
    const value = call();
    if (kind === "xxh3_128") return `${this.view.getBigUint64(8, true)} ${this.view.getBigUint64(0, true)}`;
    return String(kind === "xxh32" ? value >>> 0 : BigInt.asUintN(64, value));
  }
}

/** Nanoseconds of one call, over this many. */
function timed(call, times) {
  const start = performance.now();
  for (let i = 0; i < times; i += 1) call();
  return (performance.now() - start) / times * 1e6;
}

/** Nanoseconds of a call in the shortest turn of this length. */
function shortestIn(call, milliseconds) {
  const end = performance.now() + milliseconds;
  let shortest = Infinity;
  while (performance.now() < end) shortest = Math.min(shortest, timed(call, 50));
  return shortest;
}

/** Calls until the engine has compiled everything, after which turns get no shorter. */
function warm(call) {
  let before = Infinity;
  let now = shortestIn(call, WARM_MILLISECONDS);
  for (let turn = 0; turn < 10 && now < before * 0.97; turn += 1) {
    before = now;
    now = Math.min(now, shortestIn(call, WARM_MILLISECONDS / 2));
  }
}

/** The number of calls of a turn. */
function timesFor(call) {
  warm(call);
  let times = 1;
  // The shortest of three turns, since one with an interruption would end it too early.
  const shortest = () => Math.min(timed(call, times), timed(call, times), timed(call, times)) * times;
  while (times < 1e6 && shortest() < TURN_MILLISECONDS * 1e6) times *= 2;
  return times;
}

function row(modules, kind, form, size, rounds) {
  const calls = modules.map((it) => it[form](kind, size));
  const answers = modules.map((it, i) => it.answer(kind, calls[i]));
  if (new Set(answers).size !== 1) throw new Error(`${kind} ${form} ${size}: ${answers.join(", ")}`);
  const times = Math.min(...calls.map(timesFor));
  const taken = modules.map(() => []);
  for (let round = 0; round < rounds; round += 1) {
    for (let i = 0; i < modules.length; i += 1) {
      const which = (i + round) % modules.length;
      taken[which].push(timed(calls[which], times));
    }
  }
  const of = (list) => [list[0], list[list.length >> 1]];
  return { kind, form, size, times: Object.fromEntries(modules.map(({ name }, i) => [name, of(taken[i].sort((a, b) => a - b))])) };
}

/** Rows of the best and the median nanoseconds of each module, given as `{ name, bytes }`. */
export function* measure(given, rounds) {
  const modules = given.map((it) => new Module(it));
  for (const kind of KINDS) {
    for (const length of LENGTHS) yield row(modules, kind, "oneshot", length, rounds);
    if (kind === "xxh3_128") continue;
    for (const size of PIECES) yield row(modules, kind, "stream", size, rounds);
  }
}
