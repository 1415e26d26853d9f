// SPDX-License-Identifier: MIT
/** A file or a text in the list. */
import { lineOf } from "./lines.js";
import { NAMES, copy, copyOf, keyText, sizeText } from "./text.js";

export const STOPPED = "Stopped. There is no digest.";
const OF_ANOTHER_KEY = "Hashed with another seed or secret. Hash again to use this one.";

/** Creates the element when it is first shown: of thousands of files most are not. */
export class Card {
  #item;
  #digests;
  #keyId;
  #message;
  #verdicts = [];
  #judged = "";

  /**
   * A card of the list. `list` has callbacks: `start` and `stop` a card, and `changed` for changes that affect other
   * cards; `shownKinds(card)` returns the digests to show, and `keyId` identifies the current seed and secret.
   * `name` is the file's path as far as the page knows it.
   */
  constructor(list, name, blob) {
    this.list = list;
    this.name = name;
    this.hold(blob);
    this.state = "waiting";
    this.#message = "Waiting";
  }

  /** Keeps the blob and its size, since a browser may report 0 for a file that has vanished meanwhile. */
  hold(blob) {
    this.blob = blob;
    this.size = blob.size;
  }

  /** The card's element. */
  view() {
    return this.#item ??= this.#element();
  }

  #element() {
    this.#item = copyOf("card");
    this.#part(".name").textContent = this.name;
    this.#part("progress").setAttribute("aria-label", `Progress of ${this.name}`);
    this.#part(".remove").setAttribute("aria-label", `Remove ${this.name}`);
    this.#part(".more").setAttribute("aria-label", `All four digests of ${this.name}`);
    this.#part(".act").addEventListener("click", () => this.act());
    this.#part(".more").addEventListener("click", () => this.open(!this.isOpen));
    this.#part(".remove").addEventListener("click", () => this.list.remove(this));
    this.#render();
    this.#renderVerdicts();
    return this.#item;
  }

  #part(selector) {
    return this.#item.querySelector(selector);
  }

  /** The action of the card's button: stops what runs or waits, and restarts what doesn't. */
  act() {
    if (this.isBusy()) this.stop();
    else this.wait();
  }

  isBusy() {
    return this.state === "waiting" || this.state === "running";
  }

  /** True if the fields have another seed or secret than at the start. */
  get isStale() {
    return this.#keyId !== this.list.keyId;
  }

  /** Returns the digests under the seed and secret in the fields, if there are any. */
  get digests() {
    return this.state === "done" && !this.isStale ? this.#digests : undefined;
  }

  /** Called when the fields have another seed or secret. */
  keyChanged() {
    if (this.#item && this.state === "done") this.#render();
  }

  wait() {
    this.state = "waiting";
    this.show("Waiting");
    this.list.enqueue(this);
  }

  start(key) {
    this.state = "running";
    this.started = performance.now();
    this.used = keyText(key.seed, key.secret);
    this.#keyId = key.id;
    this.job = this.list.start(this, key);
    this.show(sizeText(this.size));
  }

  stop() {
    if (this.state === "running") this.list.stop(this);
    else this.end("stopped", STOPPED);
  }

  progress(done) {
    const seconds = (performance.now() - this.started) / 1000;
    if (this.#item) this.#part("progress").value = done / this.size;
    this.setMessage(`${sizeText(done)} of ${sizeText(this.size)}, ${sizeText(done / seconds)}/s`);
  }

  finish(digests, milliseconds) {
    this.#digests = digests;
    const speed = milliseconds >= 1 && this.size > 1e6 ? `, ${sizeText(this.size / milliseconds * 1000)}/s` : "";
    this.end("done", `${sizeText(this.size)}${speed}${this.used}`);
  }

  end(state, message) {
    this.list.forget(this);
    this.state = state;
    this.show(message);
    this.list.startNext();
  }

  show(message) {
    if (this.state !== "done") this.#digests = undefined;
    this.#message = message;
    if (this.#item) this.#render();
    this.list.changed();
  }

  #render() {
    this.#item.classList.toggle("failed", this.state === "failed");
    this.#part("progress").hidden = this.state !== "running";
    if (this.state !== "running") this.#part("progress").value = 0;
    this.showDigests();
    this.#renderButton();
    this.setMessage(this.#message);
  }

  showDigests() {
    if (!this.#item) return;
    const kinds = this.digests ? this.list.shownKinds(this) : [];
    this.#part("dl").hidden = kinds.length === 0;
    this.#part("dl").replaceChildren(...kinds.map((kind) => this.#digest(kind)));
    this.#part(".more").hidden = !this.digests || !this.list.isCompact;
  }

  /** Shows all digests, or only the selected one if the list is compact. */
  open(isOpen) {
    this.isOpen = isOpen;
    this.#part(".more").setAttribute("aria-expanded", String(isOpen));
    this.#item.classList.toggle("open", isOpen);
    this.showDigests();
  }

  #digest(kind) {
    const row = copyOf("digest");
    const value = this.digests[kind];
    const button = row.querySelector("button");
    row.querySelector("dt").textContent = NAMES[kind];
    row.querySelector("code").textContent = value ?? "none: the seed has more than 32 bits";
    row.classList.toggle("none", !value);
    row.dataset.kind = kind;
    button.hidden = !value;
    button.setAttribute("aria-label", `Copy ${NAMES[kind]} of ${this.name}`);
    button.addEventListener("click", () => copy(value, button, NAMES[kind]));
    return row;
  }

  /** Returns the line that xxhsum prints for it; empty if there is no such digest. */
  line(kind) {
    return this.digests?.[kind] ? lineOf(kind, this.digests[kind], this.name) : "";
  }

  #renderButton() {
    const word = this.isBusy() ? "Stop" : this.state !== "done" ? "Start again" : this.isStale ? "Hash again" : "";
    this.#part(".act").hidden = !word;
    this.#part(".act").textContent = word;
    this.#part(".act").setAttribute("aria-label", `${word}: ${this.name}`);
  }

  setMessage(message) {
    this.#message = message;
    if (this.#item) this.#part(".state").textContent = this.state === "done" && this.isStale ? OF_ANOTHER_KEY : message;
  }

  /** Shows the result of the comparison: each verdict has a flag for equality and a text. */
  judge(verdicts) {
    const message = verdicts.map((verdict) => verdict.message).join("\n");
    if (message === this.#judged) return;
    this.#judged = message;
    this.#verdicts = verdicts;
    if (this.#item) this.#renderVerdicts();
  }

  #renderVerdicts() {
    this.#part(".verdicts").replaceChildren(...this.#verdicts.map(({ isSame, message }) => {
      const item = document.createElement("li");
      item.className = isSame ? "same" : "different";
      item.textContent = message;
      return item;
    }));
  }
}
