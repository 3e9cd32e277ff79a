/** Notes as they were at the moment that the map is of: on the map, in a list, opened and commented on. */

import * as L from "/leaflet/leaflet.esm.js";
import * as api from "./api.js";
import { byId, make, plain, seconds, when } from "./dom.js";

const AREA = 25;
const mark = (open) => ({ radius: 8, color: "#222", weight: 2, fill: true, fillColor: open ? "#e33" : "#3a3", fillOpacity: 0.9 });
const OPEN = { opened: "open", reopened: "open", closed: "closed" };

/** A note as it was at a moment in seconds, or as it is; null where it wasn't there. */
export function noteAt(it, at) {
  if (!at) return it;
  const comments = it.properties.comments.filter((row) => seconds(plain(row.date)) <= at);
  if (!comments.length) return null;
  const status = comments.map((row) => OPEN[row.action]).filter((state) => state !== undefined).at(-1) ?? "open";
  return { ...it, properties: { ...it.properties, comments, status } };
}

export class Notes {
  /** `shown` is called before a note is shown, with its id or null. */
  constructor(map, shown) {
    this.map = map;
    this.shown = shown;
    this.layer = L.layerGroup().addTo(map);
    this.place = null;
    this.served = true;
    this.moment = null;
    this.one = null;
    this.list = byId("notes").querySelector("ul");
    byId("place").addEventListener("click", () => this.ask());
  }

  async load(at, signal) {
    this.moment = at;
    if (this.one) this.draw();
    if (!this.served || api.area(this.map.getBounds()) > AREA) return;
    try {
      const found = (await api.notes(this.map.getBounds(), Boolean(at), signal)).map((it) => noteAt(it, at)).filter((it) => it !== null);
      this.layer.clearLayers();
      for (const it of found) {
        const [lon, lat] = it.geometry.coordinates;
        const dot = L.circleMarker([lat, lon], mark(it.properties.status === "open"));
        dot.on("click", (event) => { L.DomEvent.stopPropagation(event); this.show(it); });
        dot.addTo(this.layer);
      }
      this.list.replaceChildren(...found.map((it) => make("li", {}, this.row(it))));
      this.list.dataset.count = String(found.length);
    } catch (why) {
      if (why.name === "AbortError") return;
      this.served = why.status !== 404;
      this.list.replaceChildren(make("li", { class: "wrong" }, why.message));
    }
  }

  row(it) {
    const first = it.properties.comments[0];
    return make("button", { type: "button", class: "row", onclick: () => this.show(it) },
      `${it.properties.status === "open" ? "●" : "✓"} ${first.text.slice(0, 80)}`,
      make("div", { class: "small" }, `${first.user ?? "somebody"}, ${when(plain(first.date))}`));
  }

  /** A note by its id; where it is, or null where it can't be had. */
  async open(id) {
    try {
      const it = await api.note(id);
      this.show(it);
      const [lon, lat] = it.geometry.coordinates;
      return [lat, lon];
    } catch (why) {
      byId("note").replaceChildren(make("h1", {}, `Note ${id}`), make("p", { class: "wrong" }, why.message));
      return null;
    }
  }

  /** Shows a note whose comments are all there, though the map may be of an earlier moment. */
  show(it) {
    this.shown(it.properties.id);
    this.one = it;
    this.draw();
    if (this.moment) api.note(it.properties.id).then((whole) => { if (this.one === it) { this.one = whole; this.draw(); } }, () => {});
  }

  draw() {
    const id = this.one.properties.id;
    const it = noteAt(this.one, this.moment);
    byId("note").dataset.shown = id;
    if (!it) {
      byId("note").replaceChildren(make("h1", {}, `Note ${id}`), make("p", {}, "It wasn't there yet at the moment that the map is of."));
      return;
    }
    const said = it.properties.comments.map((row) =>
      make("p", { class: "said" }, make("span", { class: "small" }, `${row.user ?? "somebody"} ${row.action} it, ${when(plain(row.date))}`), "\n", row.text));
    byId("note").replaceChildren(make("h1", {}, `Note ${id}, ${it.properties.status}`), ...said, ...(this.moment ? [] : this.answers(it)));
  }

  /** A field and buttons; a note of the past takes no comment. */
  answers(it) {
    const open = it.properties.status === "open";
    const text = make("textarea", { rows: 3, maxlength: 2000, "aria-label": "Comment" });
    const wrong = make("p", { class: "wrong", role: "alert" });
    const act = (what) => async () => {
      try {
        this.show(await api.changeNote(it.properties.id, what, text.value));
        await this.load(this.moment);
      } catch (why) {
        wrong.textContent = api.hasToken() ? why.message : `${why.message}: a comment needs a token`;
      }
    };
    const button = (what, label) => make("button", { type: "button", onclick: act(what), "data-do": what }, label);
    const buttons = open ? [button("comment", "Comment"), " ", button("close", "Close it")] : [button("reopen", "Open it again")];
    return [text, ...buttons, wrong];
  }

  // ---- a new note

  /** The next click on the map, or Enter on it, says where. */
  ask() {
    this.place = this.map.getCenter();
    this.one = null;
    byId("note").replaceChildren(make("p", {}, "Click where it is, or press Enter for the middle of the map."));
    this.map.getContainer().focus();
  }

  get waits() {
    return this.place !== null;
  }

  at(place) {
    this.place = null;
    this.shown(null);
    this.one = null;
    const dot = L.circleMarker(place, mark(true)).addTo(this.layer);
    const text = make("textarea", { rows: 4, maxlength: 2000, "aria-label": "What is to be said" });
    const wrong = make("p", { class: "wrong", role: "alert" });
    const send = async () => {
      try {
        const it = await api.openNote(place, text.value);
        await this.load(this.moment);
        this.show(it);
      } catch (why) {
        wrong.textContent = why.message;
      }
    };
    const forget = () => { dot.remove(); byId("note").replaceChildren(); };
    byId("note").replaceChildren(
      make("p", {}, `A note at ${place.lat.toFixed(5)}, ${place.lng.toFixed(5)}`), text,
      make("button", { type: "button", onclick: send, "data-do": "open" }, "Open it"), " ",
      make("button", { type: "button", onclick: forget }, "Forget it"), wrong);
    text.focus();
  }
}
