/** Draws what a box has as vectors, and says what was clicked. */

import * as L from "/leaflet/leaflet.esm.js";
import { make } from "./dom.js";
import { lookOf, nameOf, pointOf } from "./paint.js";
import { polygonsOf } from "./rings.js";

/** How thick lines and how large points are at a zoom. */
const scaleAt = (zoom) => Math.max(0.45, Math.min(1, (zoom - 12) / 5));

const MARKED = { color: "#d6008f", weight: 5, opacity: 0.8, fill: false, interactive: false };

export class Drawing {
  /** `chosen` is called with an element that was clicked, and where. */
  constructor(map, chosen) {
    this.map = map;
    this.chosen = chosen;
    this.layer = L.layerGroup().addTo(map);
    this.mark = L.layerGroup().addTo(map);
    this.drawn = new Map();
    this.marked = null;
  }

  /** Draws a tile's worth of the map from afar (api.overview), each way with its own places. */
  showFar(tiles) {
    const looks = new Map();
    for (const { ways, places } of tiles) {
      for (const { id, tags, closed, line } of ways) {
        const points = [];
        for (let i = 0; i < line.length; i += 2) points.push([line[i], line[i + 1]]);
        looks.set(`way/${id}`, this.shape({ type: "way", id, tags }, tags, points, closed));
      }
      for (const { id, lat, lon, tags } of places) {
        looks.set(`node/${id}`, { it: { type: "node", id, tags }, level: 9, places: [[lat, lon]], layer: L.circleMarker([lat, lon], { ...pointOf(tags), radius: 2 }) });
      }
    }
    this.put([...looks.values()]);
  }

  show(elements) {
    const places = new Map();
    const ways = new Map();
    for (const it of elements) {
      if (it.type === "node") places.set(it.id, [it.lat, it.lon]);
      if (it.type === "way") ways.set(it.id, it);
    }
    this.put(elements.map((it) => this.lookOf(it, ways, places)).filter((look) => look !== null));
  }

  put(looks) {
    this.layer.clearLayers();
    this.drawn.clear();
    looks.sort((a, b) => a.level - b.level);
    // All casings of roads lie below all roads, so that crossings are open.
    for (const look of looks) if (look.casing) this.add(look, L.polyline(look.places, look.casing));
    for (const look of looks) this.add(look, look.layer);
    if (this.marked) this.markAgain();
  }

  lookOf(it, ways, places) {
    const tags = it.tags ?? {};
    if (it.type === "node") {
      if (!it.tags) return null;
      const at = places.get(it.id);
      return { it, level: 9, places: [at], layer: L.circleMarker(at, this.dotOf(tags)) };
    }
    if (it.type === "relation") {
      if (tags.type !== "multipolygon") return null;
      const polygons = polygonsOf(it, ways, places);
      return polygons.length ? this.shape(it, tags, polygons, true) : null;
    }
    const line = it.nodes.map((id) => places.get(id)).filter((place) => place !== undefined);
    const closed = it.nodes.length > 3 && it.nodes[0] === it.nodes.at(-1);
    return line.length > 1 ? this.shape(it, tags, line, closed) : null;
  }

  dotOf(tags) {
    const style = pointOf(tags);
    return { ...style, radius: Math.max(2, style.radius * scaleAt(this.map.getZoom())) };
  }

  shape(it, tags, places, closed) {
    const look = lookOf(tags, closed);
    const scale = scaleAt(this.map.getZoom());
    for (const style of [look.style, look.casing]) if (style?.weight) style.weight = Math.max(1, style.weight * scale);
    const layer = look.style.fill ? L.polygon(places, look.style) : L.polyline(places, look.style);
    return { ...look, it, places, layer };
  }

  add(look, layer) {
    layer.on("click", (event) => {
      L.DomEvent.stopPropagation(event);
      this.chosen(look.it, event.latlng);
    });
    const name = nameOf(look.it);
    // A text would be taken for HTML.
    if (name) layer.bindTooltip(() => make("span", {}, name), { sticky: true });
    layer.addTo(this.layer);
    this.drawn.set(`${look.it.type}/${look.it.id}`, look);
  }

  /** The elements that are drawn within so many pixels of a place, the nearest first, small things before large ones. */
  near(place, pixels = 30) {
    const at = this.map.latLngToLayerPoint(place);
    const rows = [];
    for (const look of this.drawn.values()) {
      const away = this.away(look, at) - look.level;
      if (away <= pixels) rows.push({ away, it: look.it });
    }
    return rows.sort((a, b) => a.away - b.away).map((row) => row.it);
  }

  away(look, at) {
    const lines = look.places.flat(Infinity);
    let least = Infinity;
    let before = null;
    for (let i = 0; i + 1 < lines.length; i += 2) {
      const point = this.map.latLngToLayerPoint([lines[i], lines[i + 1]]);
      least = Math.min(least, before ? L.LineUtil.pointToSegmentDistance(at, before, point) : at.distanceTo(point));
      before = point;
    }
    return least;
  }

  /** Draws a line around an element, as long as it is in the box. */
  choose(it) {
    this.marked = it && `${it.type}/${it.id}`;
    this.markAgain();
  }

  markAgain() {
    this.mark.clearLayers();
    const look = this.drawn.get(this.marked);
    if (!look) return;
    const one = look.it.type === "node";
    (one ? L.circleMarker(look.places[0], { ...MARKED, radius: 9 }) : L.polyline(look.places, MARKED)).addTo(this.mark);
  }
}
