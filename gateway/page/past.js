/** The slider over time: which moment the map is shown of. Its marks are the moments of the newest changesets. */

import { byId, make, seconds, when } from "./dom.js";

const WAIT = 250;

export class Past {
  /** `changed` is called with a moment in seconds, or with null for now. */
  constructor(changed) {
    this.changed = changed;
    this.marks = [];
    this.at = null;
    this.slider = byId("moment");
    this.slider.addEventListener("input", () => this.moved());
    this.slider.addEventListener("keydown", (event) => this.key(event));
    byId("earlier").addEventListener("click", () => this.step(-1));
    byId("later").addEventListener("click", () => this.step(1));
    byId("now").addEventListener("click", () => this.go(this.end()));
  }

  end = () => Number(this.slider.max);

  /** Takes the moments at which these changesets began and were closed. */
  take(changesets) {
    const moments = changesets.flatMap((it) => [it.created_at, it.closed_at]).filter((it) => it !== undefined).map(seconds);
    // The server's clock may be before this one's.
    const now = Math.max(Math.floor(Date.now() / 1000), ...moments);
    this.marks = [...new Set(moments)].sort((a, b) => a - b);
    const first = this.marks[0] ?? now - 1;
    // A moment before the first mark shows the map without what these changesets did.
    this.slider.min = first - 1;
    this.slider.max = Math.max(now, first + 1);
    byId("moments").replaceChildren(...this.marks.map((it) => make("option", { value: it })));
    this.slider.value = this.at ?? this.slider.max;
    this.tell();
  }

  /** Arrow keys go from mark to mark; a second is too short a step. */
  key(event) {
    const step = { ArrowLeft: -1, ArrowDown: -1, ArrowRight: 1, ArrowUp: 1 }[event.key];
    if (step === undefined) return;
    event.preventDefault();
    this.step(step);
  }

  step(way) {
    const here = Number(this.slider.value);
    const stops = [Number(this.slider.min), ...this.marks, this.end()];
    const next = way < 0 ? stops.filter((it) => it < here).at(-1) : stops.find((it) => it > here);
    if (next !== undefined) this.go(next);
  }

  go(moment) {
    this.slider.value = moment;
    this.moved();
  }

  moved() {
    const moment = Number(this.slider.value);
    this.at = moment >= this.end() ? null : moment;
    this.tell();
    clearTimeout(this.timer);
    this.timer = setTimeout(() => this.changed(this.at), WAIT);
  }

  tell() {
    const text = this.at === null ? "now" : when(this.at);
    byId("shown").textContent = text;
    this.slider.setAttribute("aria-valuetext", text);
  }
}
