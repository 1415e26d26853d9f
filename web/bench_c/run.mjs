// Benchmarks modules in Node, and prints one row of JSON per line:
//
//     node web/bench_c/run.mjs ROUNDS NAME=FILE..
import { readFile } from "node:fs/promises";
import { measure } from "./measure.js";

const [rounds, ...args] = process.argv.slice(2);
const modules = await Promise.all(args.map(async (word) => {
  const [name, file] = word.split("=");
  return { name, bytes: await readFile(file) };
}));
for (const row of measure(modules, Number(rounds))) console.log(JSON.stringify(row));
