// Passes the lines of checks/lines.json to the page's parser, as checks/xxhsum-lines does for xxhsum, and prints the
// differences as JSON. Lines whose digits are little-endian by an option of the command are left out, since the page
// has no such option.
import { readFile } from "node:fs/promises";

/** The parser's results that differ from the expected ones. */
export async function misread(address) {
  const { isComment, readLine } = await import(address);
  const cases = JSON.parse(await readFile(new URL("../../checks/lines.json", import.meta.url), "utf8")).filter(({ little }) => !little);
  const wrong = cases.map((test) => ({ test, actual: meaningOf(isComment(test.line), readLine(test.line)) })).filter(({ test, actual }) => actual !== expected(test));
  return { count: cases.length, wrong };
}

function expected({ is, kind, digits, name }) {
  return is ?? JSON.stringify([kind, digits, name]);
}

function meaningOf(isComment, actual) {
  if (actual) return isComment ? "both" : JSON.stringify([actual.kinds.join(), actual.digits, actual.name]);
  return isComment ? "a comment" : "nothing";
}
