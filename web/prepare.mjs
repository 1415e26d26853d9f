// SPDX-License-Identifier: MIT
/**
 * Writes out/, the generated part of the package: the modules' bytes as text, for inline.js, and each script as
 * CommonJS with its types, with copies of the modules. npm runs it before it packs, and when it installs this
 * folder.
 */
import { copyFile, mkdir, readFile, writeFile } from "node:fs/promises";

const SCRIPTS = ["twox_hash", "node", "node_hash", "streams", "inline", "xxhash_wasm"];
const MODULES = { plain: "twox_hash.wasm", vectors: "twox_hash_simd.wasm" };

const at = (name) => new URL(name, import.meta.url);
const textOf = (name) => readFile(at(name), "utf8");

/** The paths "./node_hash.js" and "./out/modules.js" relative to out/; the names of Node's own modules stay. */
const required = (from) => from.replace(/^\.\/(?:out\/)?(\w+)\.js$/, "./$1.cjs");

/** The forms of a line that refers to other files, and their replacements in CommonJS. */
const FORMS = [
  [/^import \{ (.*) \} from "(.*)";$/gm, (_, names, from) => `const { ${names.replaceAll(" as ", ": ")} } = require("${required(from)}");`],
  [/^export \* from "(.*)";$/gm, (_, from) => `Object.assign(exports, require("${required(from)}"));`],
  [/^export \{ (.*) \} from "(.*)";$/gm, (_, names, from) => `(({ ${names} }) => Object.assign(exports, { ${names} }))(require("${required(from)}"));`],
  [/^export default async function (\w+)/gm, "module.exports = $1;\nmodule.exports.default = $1;\nasync function $1"],
];
const HERE = 'require("node:url").pathToFileURL(__filename).href';
const OWN = /^export (?=(?:async )?(?:function|class|const) (\w+))/gm;

/** A script as CommonJS. */
function commonJs(name, text) {
  const own = [...text.matchAll(OWN)].map(([, it]) => it);
  const lines = FORMS.reduce((it, [form, other]) => it.replace(form, other), text).replace(OWN, "").replaceAll("import.meta.url", HERE);
  if (/^\s*(?:import|export)\b|import\.meta/m.test(lines)) throw new Error(`${name}.js has an import or an export in another form`);
  return `"use strict";\n${lines}${own.length ? `Object.assign(exports, { ${own.join(", ")} });\n` : ""}`;
}

async function write(name, text) {
  await writeFile(at(`out/${name}`), text);
}

await mkdir(at("out/"), { recursive: true });
const bytes = await Promise.all(Object.entries(MODULES).map(async ([name, file]) => (
  `export const ${name} = "${(await readFile(at(file))).toString("base64")}";\n`)));
await write("modules.js", bytes.join(""));
await write("modules.cjs", commonJs("out/modules", bytes.join("")));
for (const file of Object.values(MODULES)) await copyFile(at(file), at(`out/${file}`));
for (const name of SCRIPTS) {
  await write(`${name}.cjs`, commonJs(name, await textOf(`${name}.js`)));
  if (name !== "node_hash") await write(`${name}.d.cts`, (await textOf(`${name}.d.ts`)).replaceAll(/from "\.\/(\w+)\.js"/g, 'from "./$1.cjs"'));
}
