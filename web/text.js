// SPDX-License-Identifier: MIT
/** The page's texts. */

/** The names of the digests, in the order in which they are shown. */
export const NAMES = { xxh32: "XXH32", xxh64: "XXH64", xxh3_64: "XXH3, 64 bits", xxh3_128: "XXH3, 128 bits" };

export const $ = (id) => document.getElementById(id);

/** Returns a copy of the template's content. */
export function copyOf(template) {
  return $(template).content.firstElementChild.cloneNode(true);
}

export function sizeText(bytes) {
  if (bytes < 1000) return bytes === 1 ? "1 byte" : `${Math.round(bytes)} bytes`;
  const units = ["kB", "MB", "GB", "TB"];
  let value = bytes / 1000;
  let unit = 0;
  while (value >= 999.5 && unit < units.length - 1) {
    value /= 1000;
    unit += 1;
  }
  return `${value.toPrecision(3)} ${units[unit]}`;
}

export function keyText(seed, secret) {
  const parts = [];
  if (seed !== undefined) parts.push(`seed ${seed}`);
  if (secret !== undefined) parts.push(`a secret of ${secret.length} bytes`);
  return parts.length ? `, with ${parts.join(" and ")}` : "";
}

/** "10,000". */
export function inThousands(number) {
  return number.toLocaleString("en");
}

/** "1 file" or "2,000 files". */
export function counted(number, word) {
  return `${inThousands(number)} ${word}${number === 1 ? "" : "s"}`;
}

/** Announces it to a screen reader. */
export function announce(text) {
  $("status").textContent = text;
}

/** Copies a text to the clipboard, and shows that on the button. */
export async function copy(text, button, what) {
  const word = button.dataset.word ??= button.textContent;
  try {
    await navigator.clipboard.writeText(text);
    button.textContent = "Copied";
    announce(`${what} copied`);
  } catch {
    button.textContent = "Not allowed";
    announce(`This browser doesn't let the page copy ${what}`);
  }
  setTimeout(() => { button.textContent = word; }, 1500);
}
