// Prints what this engine makes of modules, which come one a line: {"module": its bytes in hexadecimal, "calls": n,
// "place": p}. Of each: whether it is valid; then of each of its n functions f0, f1, .. sixteen bytes at p behind the
// call.
import { createInterface } from "node:readline";

function called(exports, name, place) {
  try {
    exports[name]();
  } catch (error) {
    if (error instanceof WebAssembly.RuntimeError) return "trap";
    throw error;
  }
  return Buffer.from(new Uint8Array(exports.memory.buffer, place, 16)).toString("hex");
}

for await (const line of createInterface({ input: process.stdin })) {
  const { module, calls, place } = JSON.parse(line);
  const bytes = Buffer.from(module, "hex");
  const outputs = [WebAssembly.validate(bytes)];
  if (calls > 0) {
    const { exports } = new WebAssembly.Instance(new WebAssembly.Module(bytes), {});
    for (let i = 0; i < calls; i += 1) outputs.push(called(exports, `f${i}`, place));
  }
  console.log(outputs.join(" "));
}
