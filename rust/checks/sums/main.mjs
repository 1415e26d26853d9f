// SPDX-License-Identifier: MIT
// Prints the sum of sums/src/lib.rs, of the module whose path is the argument.
import { readFileSync } from "node:fs";

const { instance } = await WebAssembly.instantiate(readFileSync(process.argv[2]));
console.log(BigInt.asUintN(64, instance.exports.sum_of_hashes()).toString(16).padStart(16, "0"));
