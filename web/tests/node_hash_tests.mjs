/** The tests of createHash, for Node. */
import { createHash } from "node:crypto";
import { once } from "node:events";
import { createReadStream } from "node:fs";
import { mkdtemp, rm, writeFile } from "node:fs/promises";
import { tmpdir } from "node:os";
import { join } from "node:path";
import { PassThrough } from "node:stream";
import { pipeline } from "node:stream/promises";
import { runInNewContext } from "node:vm";
import { many } from "./module_tests.js";

let twox;

// ---- the cases of the page of node:crypto, and what follows from them, for hashes that `make` makes

function outcome(call) {
  try {
    return call();
  } catch {
    return "an error";
  }
}

const TEXT = "some data to hash";
const BYTES = Buffer.from(TEXT);

const CASES = {
  "as a stream": async (make) => {
    const [hash, seen] = [make(), []];
    hash.on("readable", () => {
      const data = hash.read();
      if (data) seen.push(data.toString("hex"));
    });
    hash.write("some data ");
    hash.write(Buffer.from("to hash"));
    hash.end();
    await once(hash, "end");
    return seen;
  },
  "in a line of pipes": async (make, file) => {
    const end = new PassThrough();
    createReadStream(file).pipe(make()).setEncoding("hex").pipe(end);
    return (await end.toArray()).join("");
  },
  "update and digest": (make) => [
    undefined, "hex", "HEX", "base64", "base64url", "latin1", "binary", "buffer", "no encoding", "", null,
  ].map((encoding) => {
    const digest = make().update(TEXT).digest(encoding);
    return Buffer.isBuffer(digest) ? ["bytes", digest.toString("hex")] : Buffer.from(digest, encoding).toString("hex");
  }),
  "copies between updates": (make) => {
    const hash = make();
    return ["one", "two", "three"].map((word) => hash.update(word).copy().digest("hex"));
  },
  "a file, as it can be read": async (make, file) => {
    const [hash, input] = [make(), createReadStream(file)];
    input.on("readable", () => {
      const data = input.read();
      if (data) hash.update(data);
    });
    await once(input, "end");
    return hash.digest("hex");
  },
  "what comes after the digest": (make) => ["digest", "update", "copy"].map((name) => {
    const hash = make().update(TEXT);
    hash.digest();
    return outcome(() => hash[name]("more"));
  }),
  "a pipeline, and then the digest": async (make, file) => {
    const hash = make();
    await pipeline(createReadStream(file), hash);
    return [hash.digest("hex"), outcome(() => hash.digest("hex")), outcome(() => hash.update("more")), outcome(() => hash.copy())];
  },
  "a pipeline, and then what can be read, and the digest": async (make, file) => {
    const hash = make();
    await pipeline(createReadStream(file), hash);
    return [hash.read().toString("hex"), hash.read(), hash.digest("hex")];
  },
  "writes that end, and then the digest": async (make) => {
    const hash = make();
    hash.end(TEXT);
    await once(hash, "finish");
    return hash.digest("hex");
  },
  "inputs of each kind": (make) => [
    [TEXT], [TEXT, "utf8"], [TEXT, "UTF-8"], [TEXT, "ascii"], [BYTES.toString("hex"), "hex"], [BYTES.toString("base64"), "base64"],
    [BYTES.toString("base64url"), "base64url"], [BYTES], [BYTES, "hex"], [new Uint8Array(BYTES)], [new DataView(new Uint8Array(BYTES).buffer)],
    [new Uint16Array([1, 258])], [TEXT, "utf16le"], [TEXT, "no encoding"], ["\u00e9", "latin1"],
  ].map((args) => make().update(...args).digest("hex")),
  "inputs of no kind": (make) => [[7], [null], [undefined], [{}], ["abc", "hex"], []].map((args) => outcome(() => make().update(...args).digest("hex"))),
};

/** The result of a case, with each digest replaced by the name of its input. */
async function seen(run, make, file) {
  const known = ["", TEXT, "one", "onetwo", "onetwothree", Buffer.from([1, 0, 2, 1]), Buffer.from(TEXT, "utf16le"), Buffer.from([0xe9])];
  const names = new Map(known.map((input) => [make().update(input).digest("hex"), `digest of ${Buffer.from(input).toString("hex")}`]));
  return JSON.stringify(await run(make, file), (_, value) => names.get(value) ?? value);
}

const TESTS = {
  "createHash: the cases of the page of node:crypto, beside it": async () => {
    const folder = await mkdtemp(join(tmpdir(), "twox-"));
    const wrong = [];
    try {
      await writeFile(join(folder, "file"), TEXT);
      for (const [name, run] of Object.entries(CASES)) {
        const theirs = await seen(run, () => createHash("sha256"), join(folder, "file"));
        const ours = await seen(run, () => twox.createHash("xxh3_128"), join(folder, "file")).catch(String);
        if (ours !== theirs || !theirs.includes("digest of") && !theirs.includes("error")) wrong.push(`${name}: ${ours} and not ${theirs}`);
      }
    } finally {
      await rm(folder, { recursive: true });
    }
    return { ok: wrong.length === 0, message: wrong.join("; ") || `${Object.keys(CASES).length} cases` };
  },
  "buffers and views of another page": () => {
    const bytes = `[..."some bytes"].map((it) => it.charCodeAt(0))`;
    const kinds = [`Uint8Array.of(...${bytes})`, `Uint8Array.of(...${bytes}).buffer`, `new DataView(Uint8Array.of(...${bytes}).buffer)`,
      `(() => { const it = new SharedArrayBuffer(10); new Uint8Array(it).set(${bytes}); return it; })()`];
    const values = kinds.map((kind) => twox.toHex(twox.xxh64(runInNewContext(kind), 1234), "xxh64"));
    return { ok: values.every((value) => value === "eab55659a496d78b"), message: values.join(" ") };
  },
  "createHash: update and digest, as text and as bytes": (digests) => {
    const input = many();
    const wrong = twox.KINDS.filter((kind) => {
      const hash = () => twox.createHash(kind).update(input.subarray(0, 7)).update(Buffer.from(input.subarray(7)));
      const bytes = Buffer.from(digests[kind], "hex");
      return hash().digest("hex") !== digests[kind] || hash().digest("base64") !== bytes.toString("base64")
        || !hash().digest().equals(bytes) || !Buffer.isBuffer(hash().digest("buffer"));
    });
    return { ok: wrong.length === 0, message: wrong.join(" ") };
  },
  "createHash: text, in each encoding": () => {
    const expected = twox.toHex(twox.xxh64("a\u00e9"), "xxh64");
    const given = [["a\u00e9"], ["a\u00e9", "utf8"], ["61c3a9", "hex"], ["YcOp", "base64"], ["a\u00c3\u00a9", "latin1"]];
    return { ok: given.every((args) => twox.createHash("xxh64").update(...args).digest("hex") === expected) };
  },
  "createHash: a seed and a secret": () => {
    const secret = Buffer.alloc(136, 7);
    const value = twox.toHex(twox.xxh3_128(many(), { secret }), "xxh3_128");
    const seeded = twox.createHash("xxh64", { seed: 1234n }).update("some bytes").digest("hex");
    return { ok: seeded === "eab55659a496d78b" && twox.createHash("xxh3_128", { secret }).update(many()).digest("hex") === value };
  },
  "createHash: a file that is piped into it": async (digests) => {
    const folder = await mkdtemp(join(tmpdir(), "twox-"));
    try {
      await writeFile(join(folder, "many"), many());
      const hash = twox.createHash("xxh3_128");
      await pipeline(createReadStream(join(folder, "many")), hash);
      return { ok: hash.read().toString("hex") === digests.xxh3_128 };
    } finally {
      await rm(folder, { recursive: true });
    }
  },
  "createHash: a copy goes on by itself": () => {
    const hash = twox.createHash("xxh3_64", { seed: 7 }).update("some");
    const copy = hash.copy().update(" bytes").digest("hex");
    return { ok: copy === twox.toHex(twox.xxh3_64("some bytes", { seed: 7 }), "xxh3_64")
      && hash.digest("hex") === twox.toHex(twox.xxh3_64("some", { seed: 7 }), "xxh3_64") };
  },
  "createHash: the digest ends it": () => {
    const hash = twox.createHash("xxh32");
    hash.digest();
    const codes = [() => hash.update("more"), () => hash.digest(), () => hash.copy()].map(codeOf);
    return { ok: codes.every((code) => code === "freed"), message: codes.join(" ") };
  },
  "a Hash by new is refused": () => {
    const codes = [() => new twox.Hash("xxh64"), () => new twox.Hash()].map(codeOf);
    return { ok: codes.every((code) => code === "kind"), message: codes.join(" ") };
  },
};

function codeOf(call) {
  try {
    call();
    return "no error";
  } catch (error) {
    return error.code ?? String(error);
  }
}

export async function runNodeHashTests(entry, digests) {
  twox = entry;
  await twox.load();
  const lines = [];
  for (const [name, test] of Object.entries(TESTS)) {
    try {
      lines.push({ name, ...(await test(digests)) });
    } catch (error) {
      lines.push({ name, ok: false, message: String(error.stack ?? error) });
    }
  }
  return lines;
}
