// SPDX-License-Identifier: MIT
/** Expected digests: the one in the field, and those of checksum files. */
import { readField } from "./key.js";
import { readExpected, readList, sameKind } from "./lines.js";
import { Rows } from "./rows.js";
import { $, NAMES, copyOf, counted, inThousands } from "./text.js";

/** Returns the digest in the field, or undefined if there is none. */
function readExpectedField() {
  return readField("expected", () => ($("expected").value.trim() ? readExpected($("expected").value) : undefined)).value;
}

/** True if one of these digests is the one in the field. */
export function isExpected(digests) {
  const expected = readExpectedField();
  return expected !== undefined && sameKind(expected, digests) !== undefined;
}

/** Compares the cards with the digest in the field, and returns each card's verdict. */
export function compareWithField(cards) {
  const expected = readExpectedField();
  const done = expected ? cards.filter((card) => card.digests) : [];
  const isStale = cards.some((card) => card.state === "done" && card.isStale);
  const verdicts = new Map(done.map((card) => [card, verdictOf(expected, card, "")]));
  const same = done.filter((card) => verdicts.get(card).isSame);
  $("verdict").textContent = expected ? fieldText(expected, done, same, cards.length, isStale) : "";
  $("verdict").className = same.length ? "same" : done.length ? "different" : "quiet";
  return verdicts;
}

function fieldText(expected, done, same, all, isStale) {
  if (all === 0) return "There is nothing to compare it with yet.";
  if (done.length === 0 && isStale) return "Hash again to compare it: the digests are of another seed or secret.";
  if (done.length === 0) return "There is no digest to compare it with yet.";
  const left = done.length < all ? ` ${inThousands(all - done.length)} more have no digest.` : "";
  if (same.length === 0) return `Different${done[0].used}: ${done.length === 1 ? `no digest of ${done[0].name}` : `none of the ${inThousands(done.length)}`} is this one.${left}${otherText(expected)}`;
  const others = done.length > same.length ? ` Different from ${counted(done.length - same.length, "other")}.` : "";
  return `Same: ${NAMES[sameKind(expected, same[0].digests)]} of ${same.map(({ name }) => name).join(", ")}.${others}${left}`;
}

function otherText({ digits, mayBe }) {
  return mayBe ? ` ${digits.length} digits may also be ${mayBe}, which this page doesn't compute.` : "";
}

function verdictOf(expected, card, where) {
  const kind = sameKind(expected, card.digests);
  return kind ? { isSame: true, message: `Same${where}: ${NAMES[kind]}` } : { isSame: false, message: `Different${where || " from the expected digest"}${card.used}` };
}

/** The text of a row of a checksum file, by its card's state. */
const WITHOUT_DIGEST = { failed: "can't be read", stopped: "stopped", waiting: "waiting", running: "waiting", done: "hash again" };

/** Texts of rows without a result. */
const OPEN = ["waiting", "hash again"];

/** The order in which the results of rows are counted. */
const COUNTED = ["same", "different", "can't be read", "not here", "stopped", "hash again", "waiting"];

/** From this many lines on, those that aren't the same can be shown separately. */
const FILTERED_FROM = 20;

/** A line of a checksum file, with the result of its comparison. */
class Line {
  #item;
  word = "";

  constructor({ name }) {
    this.name = name;
  }

  view() {
    if (!this.#item) {
      this.#item = copyOf("checkrow");
      this.#item.querySelector(".file").textContent = this.name;
      this.#render();
    }
    return this.#item;
  }

  show(word) {
    if (word === this.word) return;
    this.word = word;
    if (this.#item) this.#render();
  }

  #render() {
    const place = this.#item.querySelector(".word");
    place.textContent = this.word;
    place.className = `word ${this.word === "same" ? "same" : OPEN.includes(this.word) ? "quiet" : "different"}`;
  }
}

/** A checksum file: a row for each of its lines, and the counts at the end. */
export class Checklist {
  constructor(list, name, { entries, others }) {
    this.name = name;
    this.entries = entries;
    this.others = others;
    this.item = copyOf("checklist");
    this.part(".name").textContent = name;
    this.part(".hash").addEventListener("click", () => list.hashInstead(this));
    this.part(".hash").setAttribute("aria-label", `Hash ${name} as a file`);
    this.part(".remove").addEventListener("click", () => list.remove(this));
    this.part(".remove").setAttribute("aria-label", `Remove ${name}`);
    this.part(".filter").hidden = entries.length < FILTERED_FROM;
    this.part(".filter input").addEventListener("change", () => this.showRows());
    this.lines = entries.map((entry) => new Line(entry));
    this.rows = new Rows(this.part("ol"), this.part(".more"));
    this.showRows();
  }

  view() {
    return this.item;
  }

  part(selector) {
    return this.item.querySelector(selector);
  }

  /** Shows the result of each line, and returns the verdicts by their cards. */
  compare(cards) {
    const verdicts = new Map();
    const counts = {};
    matched(this.entries, cards, this.name).forEach((card, i) => {
      const verdict = card?.digests && verdictOf(this.entries[i], card, ` as in ${this.name}`);
      const word = verdict ? (verdict.isSame ? "same" : "different") : card ? WITHOUT_DIGEST[card.state] : "not here";
      if (verdict) verdicts.set(card, verdict.isSame ? verdict : { ...verdict, message: `Different from ${this.name}${card.used}` });
      counts[word] = (counts[word] ?? 0) + 1;
      this.lines[i].show(word);
    });
    this.showRows();
    this.showCounts(counts);
    this.showKey([...verdicts].find(([, { isSame }]) => !isSame)?.[0].used ?? "");
    return verdicts;
  }

  /** The rows of all lines, or of those that aren't the same. */
  showRows() {
    const areOthersLeftOut = this.part(".filter input").checked;
    this.rows.set(areOthersLeftOut ? this.lines.filter(({ word }) => word !== "same") : this.lines);
  }

  /** Shows the seed and secret that its files were hashed with: xxhsum's lines have none. */
  showKey(used) {
    const keyed = used && `Hashed ${used.slice(2)}. xxhsum has no seed and no secret: to verify its lines, empty both fields and hash again.`;
    if (this.part(".keyed").textContent !== keyed) this.part(".keyed").textContent = keyed;
  }

  showCounts(counts) {
    const parts = COUNTED.filter((word) => counts[word]).map((word) => `${inThousands(counts[word])} ${word}`);
    if (this.others) parts.push(`${counted(this.others, "line")} not understood`);
    const place = this.part(".counts");
    const isGood = counts.same === this.entries.length && !this.others;
    place.className = `counts ${isGood ? "same" : OPEN.some((word) => counts[word]) ? "quiet" : "different"}`;
    const text = `${counted(this.entries.length + this.others, "line")}: ${parts.join(", ")}.`;
    if (place.textContent !== text) place.textContent = text;
    this.part(".hint").hidden = !counts["not here"];
  }
}

/**
 * Returns the card of each entry, or undefined. A path relative to the checksum file has priority over one with the
 * same end.
 */
function matched(entries, cards, listName) {
  const byPath = new Map(cards.map((card) => [plain(card.name), card]));
  const folder = plain(listName).replace(/[^/]*$/, "");
  const found = entries.map(({ name }) => byPath.get(folder + plain(name)) ?? byPath.get(plain(name)));
  const taken = new Set(found);
  const byLast = grouped(cards.filter((card) => !taken.has(card)), ({ name }) => lastOf(name));
  const left = grouped(entries.filter((_, i) => !found[i]), ({ name }) => lastOf(name));
  // If two files or two lines of different paths have the same name, none is chosen.
  const isClear = ([last, same]) => byLast.get(last)?.length === 1 && new Set(same.map(({ name }) => plain(name))).size === 1;
  const clear = new Map([...left].filter(isClear).map(([last]) => [last, byLast.get(last)[0]]));
  return found.map((card, i) => {
    const only = clear.get(lastOf(entries[i].name));
    return card ?? (only && endAlike(entries[i].name, only.name) ? only : undefined);
  });
}

function grouped(items, keyOf) {
  const groups = new Map();
  for (const item of items) {
    const key = keyOf(item);
    if (groups.has(key)) groups.get(key).push(item);
    else groups.set(key, [item]);
  }
  return groups;
}

function endAlike(left, right) {
  const [one, other] = [`/${plain(left)}`, `/${plain(right)}`];
  return one.endsWith(other) || other.endsWith(one);
}

function plain(path) {
  return path.replace(/\\/g, "/").replace(/^(\.\/)+/, "");
}

function lastOf(path) {
  return plain(path).split("/").at(-1);
}

/** Returns the lines of the text if it is a checksum file; null if it is none, or no text at all. */
export async function readChecklist(blob) {
  try {
    return readList(new TextDecoder("utf-8", { fatal: true }).decode(await blob.arrayBuffer()));
  } catch {
    return null;
  }
}
