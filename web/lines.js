// SPDX-License-Identifier: MIT
/** Lines as xxhsum writes and reads them, and digests as people paste them. Nothing here accesses the page. */

/** The hashes with this number of digits. */
const KINDS_BY_LENGTH = { 8: ["xxh32"], 16: ["xxh64", "xxh3_64"], 32: ["xxh3_128"] };

/** Other hashes: those that this number of digits looks like or may be, and names that people write before a digest. */
const OTHERS = { 40: "SHA-1", 56: "SHA-224", 64: "SHA-256", 96: "SHA-384", 128: "SHA-512" };
const MAY_BE = { 8: "a CRC-32", 32: "an MD5" };
const OTHER_NAME = /^(md5|crc-?32c?|sha-?[0-9]{1,3}|blake[0-9]\w*)$/i;
const COMPUTED = "this page computes only XXH32, XXH64 and XXH3.";

/** The hashes that a name may mean. */
const KINDS_BY_NAME = { XXH32: ["xxh32"], XXH64: ["xxh64"], XXH128: ["xxh3_128"], XXH3: ["xxh3_64", "xxh3_128"] };

/** The hash of a tag, by its beginning. */
const KINDS_BY_TAG = [["XXH32", "xxh32"], ["XXH64", "xxh64"], ["XXH128", "xxh3_128"], ["XXH3", "xxh3_64"]];

/** The hash of digits with no tag, by their number: those of XXH3 64-bit have a prefix. */
const KIND_BY_COUNT = { 8: "xxh32", 16: "xxh64", 32: "xxh3_128" };
const PREFIX = "XXH3_";
const DIGITS = { xxh32: 8, xxh64: 16, xxh3_64: 16, xxh3_128: 32 };

/** The endings of checksum files' names. */
export const ENDINGS = { xxh32: "xxh32", xxh64: "xxh64", xxh3_64: "xxh3", xxh3_128: "xxh128" };

/** The beginning of a checksum file: few enough characters to test each chosen file. */
const BEGINNING = /^\uFEFF?(#|\s|\\?(XXH(32|64|128|3)(_LE)? \(|(XXH3_)?[0-9a-f]{8}))/i;
export const BEGINNING_BYTES = 16;

/** The maximum length of a line in bytes of UTF-8. No file has a longer name, and xxhsum refuses it. */
const LONGEST_LINE = 32767;

function isTooLong(line) {
  if (line.length > LONGEST_LINE) return true;
  return line.length * 3 > LONGEST_LINE && new TextEncoder().encode(line).length > LONGEST_LINE;
}

/** True if a line of a checksum file is a comment. */
export function isComment(line) {
  return line.startsWith("#");
}

/**
 * Parses a line as xxhsum does: returns lower-case digits, their hash and a file's name, or null if it is malformed.
 * Ignores a carriage return at its end, since lists from Windows have one.
 */
export function readLine(line) {
  if (isComment(line) || isTooLong(line)) return null;
  const text = line.replace(/\r$/, "").split("\0", 1)[0];
  const isEscaped = /^[ \t]*\\/.test(text);
  const shown = readText(isEscaped ? text.slice(1) : text);
  const name = shown && isEscaped ? unescaped(shown.name) : shown?.name;
  return name === undefined ? null : { ...shown, name };
}

/** Parses a text of one of the two forms, with the name as it is written. */
function readText(text) {
  const space = text.indexOf(" ");
  if (space < 0 || space + 1 === text.length) return null;
  const [first, mark, rest] = [text.slice(0, space), text[space + 1], text.slice(space + 2)];
  return mark === "(" ? readTagged(first, rest) : readPlain(first, rest);
}

function readPlain(digits, name) {
  return shownBy(digits.startsWith(PREFIX) ? "xxh3_64" : KIND_BY_COUNT[digits.length], digits, name);
}

function readTagged(tag, inside) {
  const space = inside.lastIndexOf(" ");
  const [before, digits] = [inside.slice(0, Math.max(space, 0)), inside.slice(space + 1)];
  if (!before.endsWith(") =")) return null;
  const kind = KINDS_BY_TAG.find(([name]) => tag.startsWith(name))?.[1] ?? "xxh64";
  const shown = shownBy(kind, digits, before.slice(0, -3));
  return shown && tag.includes("_LE") ? { ...shown, digits: turned(shown.digits) } : shown;
}

function shownBy(kind, written, name) {
  const digits = kind === "xxh3_64" && written.startsWith(PREFIX) ? written.slice(PREFIX.length) : written;
  return digits.length === DIGITS[kind] && /^[0-9a-f]+$/i.test(digits) ? { kinds: [kind], digits: digits.toLowerCase(), name } : null;
}

/** Unescapes a name. Returns undefined if a backslash in it has no meaning. */
function unescaped(shown) {
  const meant = { "\\": "\\", n: "\n", r: "\r" };
  const parts = shown.match(/\\?./gsu) ?? [];
  const isMeant = (part) => part[0] !== "\\" || meant[part[1]] !== undefined;
  return parts.every(isMeant) ? parts.map((part) => (part[0] === "\\" ? meant[part[1]] : part)).join("") : undefined;
}

/** Returns the bytes in reverse order. */
function turned(digits) {
  return (digits.match(/../g) ?? []).reverse().join("");
}

/**
 * Parses a pasted digest, with or without a name. Throws if there is none. `mayBe` has the other possible hashes, if
 * no name identifies it as ours.
 */
export function readExpected(text) {
  const expected = readPasted(text);
  return { ...expected, mayBe: /XXH/i.test(text) ? undefined : MAY_BE[expected.digits.length] };
}

function readPasted(text) {
  const line = readLine(text.trim());
  // A line pasted from a tool without the prefix may be XXH3.
  if (line) return line.kinds[0] === "xxh64" && !text.includes("XXH64") ? { ...line, kinds: KINDS_BY_LENGTH[16] } : line;
  const parts = text.split(/[\s:=,()*]+/).filter(Boolean);
  const digits = parts.map((part) => part.replace(/^(0x|XXH3_)/i, "")).find((part) => /^[0-9a-f]{8,}$/i.test(part));
  const name = parts.map((part) => part.match(/^(XXH32|XXH64|XXH128|XXH3)(?![0-9])/i)?.[1].toUpperCase()).find(Boolean);
  const other = parts.find((part) => OTHER_NAME.test(part));
  if (other && digits) throw new Error(`This is a digest of ${other}; ${COMPUTED}`);
  if (OTHERS[digits?.length]) throw new Error(`${digits.length} digits: this looks like ${OTHERS[digits.length]}; ${COMPUTED}`);
  if (!KINDS_BY_LENGTH[digits?.length]) throw new Error("This is not a digest, which has 8, 16 or 32 hexadecimal digits.");
  const kinds = KINDS_BY_LENGTH[digits.length].filter((kind) => KINDS_BY_NAME[name]?.includes(kind) ?? true);
  if (!kinds.length) throw new Error(`A digest of ${name} doesn't have ${digits.length} digits.`);
  return { digits: digits.toLowerCase(), kinds };
}

/** Returns the lines of a checksum file, and the number of malformed ones; null if the text is no checksum file. */
export function readList(text) {
  const lines = text.split("\n").filter((line) => line.trim() && !isComment(line));
  const entries = lines.map(readLine).filter(Boolean);
  return entries.length * 2 > lines.length ? { entries, others: lines.length - entries.length } : null;
}

/** True if a file with this beginning may be a checksum file. */
export function mayBeList(beginning) {
  return BEGINNING.test(beginning);
}

/** Returns the line that xxhsum prints for a file: for XXH3 64-bit the tagged one, which every version reads. */
export function lineOf(kind, digits, name) {
  const isEscaped = /[\n\r]/.test(name);
  const shown = isEscaped ? name.replace(/\\/g, "\\\\").replace(/\n/g, "\\n").replace(/\r/g, "\\r") : name;
  const line = kind === "xxh3_64" ? `XXH3 (${shown}) = ${digits}` : `${digits}  ${shown}`;
  return `${isEscaped ? "\\" : ""}${line}\n`;
}

/** Returns the hash whose digest is the expected one, or undefined. */
export function sameKind({ kinds, digits }, digests) {
  return kinds.find((kind) => digests[kind] === digits);
}
