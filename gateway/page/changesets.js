/** Changesets: the newest ones or those of a user in a list, their boxes on the map, and one with all that it did. */

import * as L from "/leaflet/leaflet.esm.js";
import * as api from "./api.js";
import { changesetPath, elementPath, link, userPath } from "./addresses.js";
import { byId, make, when } from "./dom.js";
import { nameOf } from "./paint.js";

const BOX = { color: "#7d5fb2", weight: 1, fill: false, interactive: false };
const CHOSEN = { color: "#d6008f", weight: 3, fill: false, interactive: false };
const DONE = { create: "#0a8a2a", modify: "#d98200", delete: "#c00020" };
const DONE_WORDS = { create: "created", modify: "modified", delete: "deleted" };
const LISTED = 300;
const PAGE = 100;
const AREA = 0.25;

export const boxOf = (it) =>
  it.min_lat === undefined ? null : L.latLngBounds([it.min_lat, it.min_lon], [it.max_lat, it.max_lon]);

/** Seconds since 1970 behind the last thing that a changeset did: nothing of it happens after it is closed. */
const endOf = (it) => (it.closed_at ? Math.floor(Date.parse(it.closed_at) / 1000) : null);

export class Changesets {
  /** `open` is called with the address of a changeset that was picked in the list. */
  constructor(map, open) {
    this.map = map;
    this.open = open;
    this.rows = [];
    this.name = undefined;
    this.current = "";
    this.boxes = L.layerGroup();
    this.mark = L.layerGroup().addTo(map);
    this.done = L.layerGroup().addTo(map);
    const pane = map.createPane("done");
    // Above the map, and clicks go through to it.
    pane.style.zIndex = 430;
    pane.style.pointerEvents = "none";
    this.renderer = L.canvas({ pane: "done" });
    this.list = byId("changesets").querySelector("ol");
    this.panel = byId("changeset");
    byId("boxes").addEventListener("change", () => this.showBoxes());
  }

  /** Lists the newest ones anew. */
  async load() {
    this.rows = [];
    this.list.replaceChildren();
    await this.add(() => api.changesets(this.name));
    if (!this.list.children.length) this.list.replaceChildren(make("li", {}, "There are none yet."));
    return this.rows;
  }

  /** Lists a page of those too that are older than the last one. */
  async older() {
    await this.add(() => (this.name === undefined ? this.before(this.rows.at(-1).id) : this.until(this.rows.at(-1))));
    return this.rows;
  }

  /** Of everybody's, those of the numbers before this one. */
  async before(id) {
    const ids = Array.from({ length: Math.min(PAGE, id - 1) }, (_, place) => id - 1 - place);
    return ids.length ? [...(await api.changesetsOf(ids)).values()] : [];
  }

  /** Of a user's, those that began up to the same moment; where a whole page did, those before it. */
  async until(last) {
    const found = await api.changesets(this.name, { time: `1970-01-01T00:00:00Z,${last.created_at}` });
    if (found.length < PAGE || found.some((it) => it.id < last.id)) return found;
    return api.changesets(this.name, { to: last.created_at });
  }

  /** Adds what comes of it that isn't listed, or says why nothing comes. Fewer than a page are the last ones. */
  async add(found) {
    this.list.querySelector(".wrong")?.remove();
    byId("older").disabled = true;
    try {
      const rows = await found();
      const isNew = (it) => !this.rows.length || it.id < this.rows.at(-1).id;
      const fresh = rows.filter(isNew);
      this.list.append(...fresh.map((it) => make("li", {}, this.row(it))));
      this.rows = [...this.rows, ...fresh];
      byId("older").hidden = rows.length < PAGE;
      this.markCurrent();
    } catch (why) {
      this.list.append(make("li", { class: "wrong" }, why.message));
    }
    byId("older").disabled = false;
    this.list.dataset.loaded = String(Number(this.list.dataset.loaded ?? 0) + 1);
    this.showBoxes();
  }

  row(it) {
    const state = it.open ? "open" : `closed ${when(it.closed_at)}`;
    const comment = it.tags.comment ? `${it.tags.comment}` : "without a comment";
    return make(
      "button",
      { type: "button", class: "row", "data-id": it.id, onclick: () => this.open(changesetPath(it.id)), onfocus: () => this.point(it), onmouseenter: () => this.point(it) },
      make("strong", {}, `${it.id} `),
      comment,
      make("div", { class: "small" }, `${it.user}, ${when(it.created_at)}, ${changesOf(it)}, ${state}${it.comments_count ? `, ${it.comments_count} comments` : ""}`),
    );
  }

  /** Shows which box is meant. */
  point(it) {
    this.mark.clearLayers();
    const box = boxOf(it);
    if (box) L.rectangle(box, CHOSEN).addTo(this.mark);
  }

  showBoxes() {
    this.boxes.clearLayers();
    const wanted = byId("boxes").checked && !byId("changesets").hidden;
    if (byId("changesets").hidden) this.mark.clearLayers();
    for (const it of wanted ? this.rows : []) if (boxOf(it)) L.rectangle(boxOf(it), BOX).addTo(this.boxes);
    this.boxes.addTo(this.map);
  }

  /** Boxes of the newest ones on a map that shows nothing else. */
  showFar() {
    for (const it of this.rows) if (boxOf(it)) L.rectangle(boxOf(it), BOX).addTo(this.boxes);
    this.boxes.addTo(this.map);
  }

  // ---- one

  /** Shows a changeset and what it did; its box, or null. */
  async show(id) {
    this.clear();
    this.panel.replaceChildren(make("h1", {}, `Changeset ${id}`), make("p", {}, "…"));
    this.current = String(id);
    this.markCurrent();
    try {
      const it = await api.changeset(id);
      this.point(it);
      this.panel.replaceChildren(...this.about(it), make("p", { class: "small" }, "…"));
      const rows = await api.download(id);
      this.panel.lastChild.replaceWith(this.contents(rows));
      this.panel.dataset.shown = String(id);
      await this.drawDone(it, rows);
      return boxOf(it);
    } catch (why) {
      this.panel.replaceChildren(make("h1", {}, `Changeset ${id}`), make("p", { class: "wrong" }, why.message));
      return null;
    }
  }

  markCurrent() {
    for (const row of this.list.querySelectorAll("[data-id]")) {
      if (row.dataset.id === this.current) row.setAttribute("aria-current", "true");
      else row.removeAttribute("aria-current");
    }
  }

  clear() {
    this.current = "";
    this.done.clearLayers();
    this.mark.clearLayers();
    this.panel.replaceChildren();
    delete this.panel.dataset.shown;
  }

  about(it) {
    const tags = Object.entries(it.tags).map(([key, value]) => make("tr", {}, make("th", { scope: "row" }, key), make("td", {}, value)));
    const state = it.open ? "open" : `closed ${when(it.closed_at)}`;
    return [
      make("h1", {}, `Changeset ${it.id}${it.tags.comment ? `: ${it.tags.comment}` : ""}`),
      make("p", { class: "small" }, "by ", link(userPath(it.user), it.user), `, ${when(it.created_at)}, ${changesOf(it)}, ${state}`),
      make("table", {}, make("tbody", {}, ...tags)),
      ...it.comments.map((row) =>
        make("p", { class: "said", id: `c${row.id}` }, make("span", { class: "small" }, link(userPath(row.user), row.user), `, ${when(row.date)}`), "\n", row.text)),
      ...(it.open ? [] : [this.answer(it)]),
    ];
  }

  answer(it) {
    const text = make("textarea", { rows: 2, maxlength: 2000, "aria-label": "Comment" });
    const wrong = make("p", { class: "wrong", role: "alert" });
    const send = async () => {
      try {
        await api.comment(it.id, text.value);
        await this.show(it.id);
      } catch (why) {
        wrong.textContent = api.hasToken() ? why.message : `${why.message}: a comment needs a token`;
      }
    };
    return make("details", {}, make("summary", {}, "Comment on it"), text, make("button", { type: "button", onclick: send, "data-do": "say" }, "Comment"), wrong);
  }

  contents(rows) {
    const listed = rows.slice(0, LISTED).map(({ action, element }) =>
      make("li", {}, make("span", { class: action }, DONE_WORDS[action]), " ", link(elementPath(element), `${element.type} ${element.id}`),
        `, version ${element.version}${nameOf(element) ? `: ${nameOf(element)}` : ""}`));
    const more = rows.length > LISTED ? [make("li", {}, `and ${rows.length - LISTED} more`)] : [];
    return make("div", {}, make("h2", {}, "What it did"), make("ul", { class: "done" }, ...listed, ...more));
  }

  /** What it did, on the map: nodes where it has them, ways by the map as it was when it ended. */
  async drawDone(it, rows) {
    const places = new Map();
    for (const { element } of rows) if (element.lat !== undefined) places.set(element.id, [element.lat, element.lon]);
    const box = boxOf(it);
    if (box && api.area(box) <= AREA && rows.some(({ element }) => element.nodes)) {
      const around = await api.map(box.pad(0.05), endOf(it)).catch(() => []);
      for (const row of around) if (row.type === "node" && !places.has(row.id)) places.set(row.id, [row.lat, row.lon]);
    }
    for (const { action, element } of rows) {
      const style = { color: DONE[action], weight: 4, opacity: 0.8, fill: false, interactive: false, renderer: this.renderer };
      if (element.type === "node" && places.has(element.id)) L.circleMarker(places.get(element.id), { ...style, radius: 5, weight: 2 }).addTo(this.done);
      const line = (element.nodes ?? []).map((id) => places.get(id)).filter((place) => place !== undefined);
      if (line.length > 1) L.polyline(line, style).addTo(this.done);
    }
    this.panel.dataset.drawn = String(this.done.getLayers().length);
  }

  // ---- a user

  /** Lists the changesets of a user alone, or of all again. */
  async of(name) {
    this.name = name;
    this.clear();
    const rows = await this.load();
    if (name === undefined) return rows;
    const count = rows.length < PAGE ? `${rows.length} changesets. ` : "The newest hundred changesets, and below them older ones. ";
    this.panel.replaceChildren(make("h1", {}, name), make("p", { class: "small" }, count, link("/history", "Those of everybody")));
    return rows;
  }
}

const changesOf = (it) => `${it.changes_count} change${it.changes_count === 1 ? "" : "s"}`;
