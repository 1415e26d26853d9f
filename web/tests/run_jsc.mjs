// jsc -m run_jsc.mjs -- WEB MODULE DIGESTS: the module's tests in WebKit's engine, by its shell, which has no
// TextEncoder.
const [web, module, digests] = arguments;

function utf8(text) {
  const escaped = encodeURIComponent(text.toWellFormed?.() ?? text);
  return Uint8Array.from(escaped.match(/%..|./g) ?? [], (it) => (it.length === 3 ? parseInt(it.slice(1), 16) : it.charCodeAt(0)));
}

globalThis.TextEncoder = class {
  encode(text) {
    return utf8(text);
  }

  /** As in the standard: whole characters, as many as fit. */
  encodeInto(text, place) {
    let [read, written] = [0, 0];
    for (const character of text) {
      const bytes = utf8(character);
      if (written + bytes.length > place.length) break;
      place.set(bytes, written);
      read += character.length;
      written += bytes.length;
    }
    return { read, written };
  }
};

try {
  const twox = await import(`${web}/twox_hash.js`);
  const { runTests } = await import(`${web}/tests/module_tests.js`);
  const bytes = readFile(module, "binary");
  const entry = { ...twox, load: () => twox.load(bytes) };
  const lines = await runTests(entry, readFile(`${web}/../oracle/vectors.txt`), JSON.parse(digests));
  print(JSON.stringify({ lines, hasVectors: twox.hasVectors() }));
} catch (error) {
  print(`${error}\n${error.stack}`);
}
