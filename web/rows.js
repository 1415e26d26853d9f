// SPDX-License-Identifier: MIT
import { inThousands } from "./text.js";

/** A long list, of which the first rows are on the page, and more as the user scrolls to their end. */

const ROWS_AT_ONCE = 200;

export class Rows {
  /**
   * `place` gets the element that each item's `view()` makes. `more` is a button after it that shows further rows,
   * also automatically when it comes into view.
   */
  constructor(place, more) {
    this.place = place;
    this.more = more;
    this.items = [];
    this.shown = 0;
    this.limit = ROWS_AT_ONCE;
    more.addEventListener("click", () => this.showMore());
    new IntersectionObserver((seen) => seen.some((it) => it.isIntersecting) && this.showMore(), { rootMargin: "600px" })
      .observe(more);
  }

  add(item) {
    this.items.push(item);
    this.fill();
  }

  remove(item) {
    const at = this.items.indexOf(item);
    if (at < 0) return;
    this.items.splice(at, 1);
    if (at < this.shown) {
      item.view().remove();
      this.shown -= 1;
    }
    this.fill();
  }

  /** Replaces the items. */
  set(items) {
    if (items.length === this.items.length && items.every((item, i) => item === this.items[i])) return;
    this.items = [...items];
    this.shown = 0;
    this.place.replaceChildren();
    this.fill();
  }

  clear() {
    this.limit = ROWS_AT_ONCE;
    this.set([]);
  }

  showMore() {
    this.limit += ROWS_AT_ONCE;
    this.fill();
  }

  fill() {
    const next = this.items.slice(this.shown, this.limit);
    this.shown += next.length;
    for (const item of next) this.place.append(item.view());
    const left = this.items.length - this.shown;
    this.more.hidden = left === 0;
    if (left > 0) this.more.textContent = `Show more: ${inThousands(left)} left`;
  }
}
