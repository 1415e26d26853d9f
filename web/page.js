// SPDX-License-Identifier: MIT
/** The page: the list of hashed items, and the user's actions. worker.js does the hashing. */
import { Card, STOPPED } from "./card.js";
import { Checklist, compareWithField, isExpected, readChecklist } from "./checksums.js";
import { filesOfDrop, filesOfInput } from "./gather.js";
import { readKey } from "./key.js";
import { BEGINNING_BYTES, ENDINGS, mayBeList } from "./lines.js";
import { Rows } from "./rows.js";
import { $, NAMES, copy, counted, inThousands, keyText, announce, sizeText } from "./text.js";

const MILLISECONDS_AFTER_TYPING = 120;
const MILLISECONDS_BEFORE_COMPARING = 30;

/** The maximum part of the page's time that comparing takes, however many files there are. */
const PART_FOR_COMPARING = 0.1;

/** From this many files on the rows are compact. */
const COMPACT_FROM = 4;

/** Longer files are no checksum files. */
const CHECKLIST_BYTES = 16 * 1024 * 1024;

/**
 * With more files than this, only those with such a name are tested for being checksum files: reading each takes a
 * while.
 */
const FILES_LOOKED_INTO = 200;
const NAMED_AS_LIST = /sums?\b|digest|check|manifest|\.(xxh\w*|md5|sha\w*|txt)$/i;

/** This many files are added before the page is updated. */
const FILES_IN_A_TURN = 200;

/**
 * This many files are sent to the worker at once, if they are small: it then waits less for the page. This many are also
 * tested for being checksum files at once.
 */
const FILES_AT_ONCE = 16;
const BYTES_AT_ONCE = 8 * 1024 * 1024;

const worker = new Worker("worker.js", { type: "module" });

// ---- the list

/** The files, the text, and the checksum files. */
const files = [];
let text = null;
const checklists = [];
const rows = new Rows($("list"), $("more-files"));

/** The files to be hashed, in order. A file that no longer waits is skipped. */
class Queue {
  #cards = [];
  #at = 0;

  add(card) {
    this.#cards.push(card);
  }

  /** Returns the next card, or undefined if none waits. */
  get first() {
    while (this.#at < this.#cards.length && this.#cards[this.#at].state !== "waiting") this.#at += 1;
    if (this.#at === this.#cards.length) this.clear();
    return this.#cards[this.#at];
  }

  clear() {
    this.#cards = [];
    this.#at = 0;
  }
}

const queue = new Queue();

/** The cards that are being hashed, by the number of the job. */
const cards = new Map();
let jobs = 0;

/** The expected digest that was found among the files. */
let foundDigest = "";

/** How often the list was cleared, and why the files that waited were last stopped: another object each time. */
let clears = 0;
let lastStop = {};

/** The callbacks of a card. */
const list = {
  isCompact: false,
  keyId: undefined, // of the seed and secret in the fields

  start(card, { seed, secret }) {
    const job = ++jobs;
    cards.set(job, card);
    worker.postMessage({ type: "hash", job, blob: card.blob, size: card.size, seed, secret });
    return job;
  },

  stop({ job }) {
    worker.postMessage({ type: "stop", job });
  },

  forget({ job }) {
    cards.delete(job);
  },

  shownKinds({ isOpen }) {
    return this.isCompact && !isOpen ? [$("kind").value] : Object.keys(NAMES);
  },

  /** If another one waits before it, that one's turn determines when to start. */
  enqueue(card) {
    queue.add(card);
    if (queue.first === card) this.startNext();
  },

  /** Starts the next files, up to the limit. With an invalid seed or secret, none until it is corrected. */
  startNext() {
    const card = queue.first;
    if (!card || !hasSpaceFor(card)) return;
    const key = readKey();
    if (key.wrong) {
      $("key").open = true;
      card.setMessage(`Waiting: ${key.wrong} is invalid`);
      return;
    }
    card.start(key);
    this.startNext();
  },

  /** Removes a card or a checksum file from the list. */
  remove(item) {
    const element = item.view();
    const next = element.nextElementSibling ?? element.previousElementSibling;
    if (item === text) $("text").value = "";
    if (item.state === "running") this.stop(item);
    if (item.job) this.forget(item);
    item.state = "removed";
    drop(files, item);
    drop(checklists, item);
    if (item === text) text = null;
    rows.remove(item);
    element.remove();
    announce(`${item.name} was removed`);
    (next?.querySelector(".remove") ?? $("files")).focus();
    this.changed();
    this.startNext();
  },

  hashInstead(checklist) {
    checklist.view().remove();
    drop(checklists, checklist);
    addFile(checklist.name, checklist.file);
    $("results-title").focus();
    this.changed();
  },

  changed() {
    comparing ??= setTimeout(compare, Math.max(MILLISECONDS_BEFORE_COMPARING, lastComparing / PART_FOR_COMPARING));
  },
};

function drop(items, item) {
  if (items.includes(item)) items.splice(items.indexOf(item), 1);
}

function hasSpaceFor({ size }) {
  const running = [...cards.values()].filter((card) => card !== text);
  const bytes = running.reduce((sum, card) => sum + card.size, size);
  return running.length === 0 || (running.length < FILES_AT_ONCE && bytes <= BYTES_AT_ONCE);
}

let comparing;
let lastComparing = 0;

/** Updates everything that depends on more than one card. */
function compare() {
  clearTimeout(comparing);
  comparing = undefined;
  const started = performance.now();
  const all = text ? [text, ...files] : files;
  const byField = compareWithField(all);
  const verdicts = [byField, ...checklists.map((checklist) => checklist.compare(files))];
  for (const card of all) card.judge(verdicts.map((them) => them.get(card)).filter(Boolean));
  if (files.some((card) => byField.get(card)?.isSame)) stopSearch();
  else foundDigest = "";
  showActions();
  lastComparing = performance.now() - started;
}

/** Once a file has the expected digest, those that wait aren't hashed, except those that the user restarts. */
function stopSearch() {
  if (foundDigest === $("expected").value) return;
  foundDigest = $("expected").value;
  stopWaiting("Not hashed, since the expected digest was found");
}

/** Stops the files that wait, and those that are still being added. */
function stopWaiting(message) {
  lastStop = { message };
  queue.clear();
  for (const card of files.filter(({ state }) => state === "waiting")) card.end("stopped", message);
}

let wasBusy = false;

function showActions() {
  const isBusy = files.some((card) => card.isBusy());
  const hasDigests = files.some((card) => card.digests);
  $("results").hidden = files.length === 0 && text === null && checklists.length === 0;
  $("stop-all").hidden = !isBusy;
  $("again").hidden = files.length === 0 || isBusy;
  $("lines").hidden = !hasDigests;
  $("lines-note").hidden = !files.some((card) => card.digests && card.used);
  showCompact(files.length >= COMPACT_FROM);
  $("tally").textContent = list.isCompact ? tallyText(isBusy) : "";
  if (list.isCompact && wasBusy && !isBusy) announce($("tally").textContent);
  wasBusy = isBusy;
}

function tallyText(isBusy) {
  const done = files.filter((card) => card.digests);
  const bytes = sizeText(done.reduce((sum, card) => sum + card.size, 0));
  const failed = files.filter(({ state }) => state === "failed").length;
  const hashed = isBusy || done.length < files.length ? `${inThousands(done.length)} of ${counted(files.length, "file")}` : counted(files.length, "file");
  return `${hashed} hashed, ${bytes}${failed ? `; ${inThousands(failed)} can't be read` : ""}.`;
}

function showCompact(isCompact) {
  if (list.isCompact === isCompact) return;
  list.isCompact = isCompact;
  for (const place of [$("typed"), $("list")]) place.classList.toggle("compact", isCompact);
  showChosenKind();
}

function showChosenKind() {
  for (const card of text ? [text, ...files] : files) card.showDigests();
}

// ---- files to hash

/**
 * Adds the files, checksum files as such, and shows the results. If the list is cleared meanwhile, no more are added, and
 * if those that wait are stopped, the others aren't hashed either.
 */
async function add(found) {
  const [clearsBefore, stopBefore] = [clears, lastStop];
  const checks = await checklistsIn(found);
  for (const [i, { path, file, error }] of found.entries()) {
    if (clears !== clearsBefore) return;
    if (checks[i]) addChecklist(path, file, checks[i]);
    else addFile(path, file, error, lastStop === stopBefore ? undefined : lastStop.message);
    if (i % FILES_IN_A_TURN === FILES_IN_A_TURN - 1) await new Promise((resolve) => setTimeout(resolve));
  }
  if (found.length) announce(found.length === 1 ? `${found[0].path} was added` : `${counted(found.length, "file")} were added`);
  $("files-note").textContent = found.length ? "" : "It contains no file.";
  compare();
  if (found.length) showResults();
}

/** Returns the lines of each checksum file, and null for each other file. Few are in memory at the same time. */
async function checklistsIn(found) {
  const looksInto = ({ path }) => found.length <= FILES_LOOKED_INTO || NAMED_AS_LIST.test(path.split("/").at(-1));
  const checks = [];
  for (let at = 0; at < found.length; at += FILES_AT_ONCE) {
    const some = found.slice(at, at + FILES_AT_ONCE);
    checks.push(...await Promise.all(some.map((it) => (looksInto(it) ? checklistIn(it.file) : null))));
  }
  return checks;
}

async function checklistIn(file) {
  if (!file || file.size === 0 || file.size > CHECKLIST_BYTES) return null;
  try {
    if (!mayBeList(await file.slice(0, BEGINNING_BYTES).text())) return null;
  } catch {
    return null; // an unreadable file is reported when it is hashed
  }
  return readChecklist(file);
}

function addFile(path, file, error, whyStopped) {
  const card = new Card(list, path, file ?? new Blob([]));
  files.push(card);
  rows.add(card);
  if (error) card.wait = () => card.end("failed", failureText(error));
  if (whyStopped && !error) card.end("stopped", whyStopped);
  else card.wait();
}

function addChecklist(path, file, lines) {
  const checklist = new Checklist(list, path, lines);
  checklist.file = file;
  checklists.push(checklist);
  $("checklists").append(checklist.view());
}

/** On a small screen the added items are below the visible part. */
function showResults() {
  const { top } = $("results").getBoundingClientRect();
  if (top >= 0 && top < innerHeight * 0.7) return;
  const isCalm = matchMedia("(prefers-reduced-motion: reduce)").matches;
  $("results").scrollIntoView({ behavior: isCalm ? "auto" : "smooth" });
}

function hashText() {
  if (text?.state === "running") list.stop(text);
  if (text) list.forget(text);
  const content = $("text").value;
  const key = readKey();
  $("text-error").textContent = content && key.wrong ? `Not hashed: ${key.wrong} is invalid.` : "";
  if (content === "") {
    removeText();
    return;
  }
  text ??= addText();
  text.hold(new Blob([content]));
  if (!key.wrong) {
    text.start(key);
    return;
  }
  text.state = "waiting";
  text.show(`Waiting: ${key.wrong} is invalid`);
}

function addText() {
  const card = new Card(list, "Text", new Blob([]));
  card.wait = hashText;
  $("typed").append(card.view());
  return card;
}

function removeText() {
  text?.view().remove();
  text = null;
  list.changed();
}

function hashAgain() {
  foundDigest = "";
  queue.clear();
  for (const card of files) card.wait();
}

function stopAll() {
  stopWaiting(STOPPED);
  for (const card of files.filter((card) => card.isBusy())) card.stop();
}

function clear() {
  clears += 1;
  queue.clear();
  for (const card of files.splice(0)) {
    if (card.state === "running") list.stop(card);
    list.forget(card);
  }
  checklists.length = 0;
  $("text").value = "";
  text = null;
  rows.clear();
  $("typed").replaceChildren();
  $("checklists").replaceChildren();
  compare();
  announce("The list is empty");
  $("files").focus();
}

/** Returns what xxhsum would print for the files, with the selected hash. */
function lines() {
  return files.map((card) => card.line($("kind").value)).join("");
}

function save() {
  const link = document.createElement("a");
  link.href = URL.createObjectURL(new Blob([lines()], { type: "text/plain" }));
  link.download = `checksums.${ENDINGS[$("kind").value]}`;
  link.click();
  setTimeout(() => URL.revokeObjectURL(link.href), 60_000);
  announce(`${link.download} is saved`);
}

// ---- messages of the worker

const WITH_VECTORS = "The fast module is in use: this browser supports WebAssembly SIMD.";
const WITHOUT_VECTORS = "The plain module is in use: this browser lacks WebAssembly SIMD, with which XXH3 is about twice as fast.";

const ANSWERS = {
  ready: ({ hasVectors }) => {
    $("module").textContent = hasVectors ? WITH_VECTORS : WITHOUT_VECTORS;
    document.documentElement.setAttribute("data-ready", "");
  },
  unsupported: ({ message }) => showUnsupported(message),
  progress: ({ done }, card) => card.progress(done),
  done: ({ digests, milliseconds }, card) => {
    if (card !== text && !card.isStale && isExpected(digests)) stopSearch();
    card.finish(digests, milliseconds);
    if (!list.isCompact) announce(`${card.name}: done`);
  },
  stopped: (_, card) => {
    card.end("stopped", STOPPED);
    announce(`${card.name}: stopped`);
  },
  failed: (answer, card) => {
    const message = failureText(answer);
    card.end("failed", message);
    announce(`${card.name}: ${message}`);
  },
};

worker.addEventListener("message", ({ data }) => {
  const card = cards.get(data.job);
  if (card || data.job === undefined) ANSWERS[data.type](data, card);
});
worker.addEventListener("error", () => showUnsupported("The page's worker didn't start, so nothing can be hashed."));

function failureText({ name, message }) {
  if (name === "NotFoundError" || name === "NotReadableError") {
    return "This file vanished, changed or can't be read. There is no digest.";
  }
  return `This couldn't be hashed: ${message} There is no digest.`;
}

function showUnsupported(message) {
  $("unsupported").textContent = message;
  $("unsupported").hidden = false;
  for (const field of document.querySelectorAll("main input, main textarea")) field.disabled = true;
}

// ---- actions of the user

for (const field of [$("files"), $("folder")]) {
  field.addEventListener("change", () => {
    const chosen = filesOfInput(field);
    field.value = ""; // so that the same file may be chosen again
    add(chosen);
  });
}
$("again").addEventListener("click", hashAgain);
$("clear").addEventListener("click", clear);
$("kind").addEventListener("change", showChosenKind);
$("copy-all").addEventListener("click", () => copy(lines(), $("copy-all"), "all lines"));
$("save").addEventListener("click", save);
$("stop-all").addEventListener("click", stopAll);
$("expected").addEventListener("input", compare);

/** Updates the current seed and secret. Digests of others can't be compared: their cards show that. */
function takeKey() {
  const key = readKey();
  const used = keyText(key.seed, key.secret);
  $("key-used").textContent = used && ` (${used.slice(2)})`;
  if (key.id === list.keyId) return;
  list.keyId = key.id;
  for (const card of files) card.keyChanged();
  list.changed();
}

let typing;
for (const field of [$("text"), $("seed"), $("secret"), ...document.querySelectorAll("[name=form]")]) {
  field.addEventListener("input", () => {
    clearTimeout(typing);
    typing = setTimeout(() => { takeKey(); hashText(); list.startNext(); }, MILLISECONDS_AFTER_TYPING);
  });
}
takeKey(); // a browser may restore the fields

/** True if text is dragged over a field, which the browser writes there. */
function isForField({ target, dataTransfer }) {
  return target.matches?.("textarea, input:not([type])") && !dataTransfer.types.includes("Files");
}

addEventListener("dragover", (event) => {
  const isForPage = !isForField(event);
  if (isForPage) event.preventDefault();
  document.body.classList.toggle("dropping", isForPage);
});
addEventListener("dragleave", (event) => {
  if (!event.relatedTarget) document.body.classList.remove("dropping");
});
addEventListener("drop", async (event) => {
  document.body.classList.remove("dropping");
  if (isForField(event)) return;
  event.preventDefault();
  if (!$("files").disabled) add(await filesOfDrop(event.dataTransfer));
});

// After the first visit the page is also available without a network, if the browser has service workers.
navigator.serviceWorker?.register("offline.js").catch(() => {});

$("asleep").remove();
