/** Names on the map: of places, of streets and waterways along their lines, of areas and points. None lies over another one. */

import * as L from "/leaflet/leaflet.esm.js";

const FONT = "system-ui, sans-serif";
const MOST = 250;
/** Names of one street are at least so many pixels from each other. */
const APART = 260;
const PLACES = { city: [17, 0], town: [15, 1], village: [13, 2], suburb: [13, 3], hamlet: [12, 4], neighbourhood: [12, 5], locality: [11, 9] };
/** From which zoom on a road's name is shown, and how early it gets its room. */
const ROADS = { motorway: [11, 10], trunk: [11, 10], primary: [12, 11], secondary: [13, 12], tertiary: [14, 13] };
const OTHER_ROADS = [15, 14];

const own = (table, key) => (key !== undefined && Object.hasOwn(table, key) ? table[key] : undefined);

/** What is to be written of a look, or null: text, font, colour, when it gets its room, and how it lies. */
function wordsOf(look, zoom) {
  const tags = look.it.tags ?? {};
  const number = tags["addr:housenumber"];
  const text = tags.name ?? (zoom >= 18 && number && look.sort !== "road" ? number : "");
  if (!text) return null;
  const place = look.it.type === "node" ? own(PLACES, tags.place) : undefined;
  if (place) return { text, size: place[0], bold: true, color: "#222", order: place[1], lies: "point", away: 0 };
  if (look.sort === "road") {
    const [from, order] = own(ROADS, tags.highway) ?? OTHER_ROADS;
    return zoom >= from ? { text, size: zoom >= 17 ? 12 : 11, color: "#333", order, lies: "line" } : null;
  }
  if (look.sort === "waterway") return zoom >= 13 ? { text, size: 11, italic: true, color: "#4a7fae", order: 15, lies: "line" } : null;
  if (look.it.type === "node") return zoom >= 17 ? { text, size: 11, color: "#444", order: 18, lies: "point", away: 12 } : null;
  if (look.sort === "area" || look.sort === "building") return zoom >= 15 ? { text, size: 11, color: look.sort === "area" ? "#456b45" : "#666", order: 17, lies: "area" } : null;
  return null;
}

const middle = (points) => {
  const box = L.bounds(points);
  return { at: box.getCenter(), size: box.getSize() };
};

/** Where a text of that width lies along a line, so that it is near to straight: each place with its angle. */
function alongOf(points, width, size) {
  const lengths = [0];
  for (let i = 1; i < points.length; i++) lengths.push(lengths[i - 1] + points[i].distanceTo(points[i - 1]));
  const whole = lengths.at(-1);
  if (whole < width) return [];
  const pointAt = (length) => {
    let i = 1;
    while (i < lengths.length - 1 && lengths[i] < length) i++;
    const part = (length - lengths[i - 1]) / (lengths[i] - lengths[i - 1] || 1);
    return points[i - 1].add(points[i].subtract(points[i - 1]).multiplyBy(part));
  };
  const found = [];
  const steps = Math.max(1, Math.floor(whole / APART));
  for (let step = 0; step < steps; step++) {
    const centre = (whole * (step + 0.5)) / steps;
    const [a, b] = [pointAt(centre - width / 2), pointAt(centre + width / 2)];
    if (a.distanceTo(b) < 0.93 * width || pointAt(centre).distanceTo(a.add(b).divideBy(2)) > size * 0.6) continue;
    let angle = Math.atan2(b.y - a.y, b.x - a.x);
    if (Math.abs(angle) > Math.PI / 2) angle -= Math.sign(angle) * Math.PI;
    found.push({ at: a.add(b).divideBy(2), angle });
  }
  return found;
}

/** Where letters lie, in squares of a grid, so that a new text meets its neighbours alone. */
class Room {
  constructor() {
    this.cells = new Map();
  }

  /** Takes the circles where none of them meets another text; whether it did. */
  take(circles) {
    const key = (x, y) => `${Math.floor(x / 40)} ${Math.floor(y / 40)}`;
    const meets = ([x, y, r]) => {
      for (const dx of [-40, 0, 40]) for (const dy of [-40, 0, 40]) {
        for (const [ox, oy, or] of this.cells.get(key(x + dx, y + dy)) ?? []) if ((x - ox) ** 2 + (y - oy) ** 2 < (r + or) ** 2) return true;
      }
      return false;
    };
    if (circles.some(meets)) return false;
    for (const it of circles) {
      const cell = key(it[0], it[1]);
      if (!this.cells.has(cell)) this.cells.set(cell, []);
      this.cells.get(cell).push(it);
    }
    return true;
  }
}

function circlesOf(at, angle, width, size) {
  const count = Math.max(1, Math.ceil(width / size));
  const found = [];
  for (let i = 0; i < count; i++) {
    const away = ((i + 0.5) / count - 0.5) * width;
    found.push([at.x + Math.cos(angle) * away, at.y + Math.sin(angle) * away, size * 0.62]);
  }
  return found;
}

export class Labels {
  constructor(map) {
    this.map = map;
    this.looks = [];
    const pane = map.createPane("labels");
    pane.style.zIndex = 450;
    pane.style.pointerEvents = "none";
    this.canvas = document.createElement("canvas");
    this.canvas.setAttribute("aria-hidden", "true");
    pane.append(this.canvas);
    map.on("moveend resize", () => this.draw());
  }

  /** The looks that are drawn (draw.js). */
  show(looks) {
    this.looks = [...looks];
    this.draw();
  }

  draw() {
    const size = this.map.getSize();
    const scale = devicePixelRatio || 1;
    Object.assign(this.canvas, { width: size.x * scale, height: size.y * scale });
    Object.assign(this.canvas.style, { width: `${size.x}px`, height: `${size.y}px` });
    L.DomUtil.setPosition(this.canvas, this.map.containerPointToLayerPoint([0, 0]));
    const pen = this.canvas.getContext("2d");
    pen.scale(scale, scale);
    Object.assign(pen, { textAlign: "center", textBaseline: "middle", lineJoin: "round", strokeStyle: "#fffc" });
    const written = this.write(pen, this.map.getZoom(), L.bounds([0, 0], size));
    this.canvas.dataset.names = JSON.stringify(written);
  }

  /** Writes what there is room for; the texts that were written. */
  write(pen, zoom, view) {
    const room = new Room();
    const written = [];
    const places = new Map();
    const rows = this.looks.map((look) => ({ look, words: wordsOf(look, zoom) })).filter((row) => row.words !== null);
    rows.sort((a, b) => a.words.order - b.words.order);
    for (const { look, words } of rows) {
      if (written.length >= MOST) break;
      pen.font = `${words.italic ? "italic " : ""}${words.bold ? "600 " : ""}${words.size}px ${FONT}`;
      const width = pen.measureText(words.text).width;
      for (const { at, angle } of this.spotsOf(look, words, width)) {
        const before = places.get(words.text) ?? [];
        const circles = circlesOf(at, angle, width, words.size);
        const isWhole = [circles[0], circles.at(-1)].every(([x, y]) => view.contains([x, y]));
        if (!isWhole || before.some((it) => it.distanceTo(at) < APART) || !room.take(circles)) continue;
        places.set(words.text, [...before, at]);
        pen.save();
        pen.translate(at.x, at.y);
        pen.rotate(angle);
        Object.assign(pen, { fillStyle: words.color, lineWidth: 3 });
        pen.strokeText(words.text, 0, 0);
        pen.fillText(words.text, 0, 0);
        pen.restore();
        written.push(words.text);
      }
    }
    return written;
  }

  spotsOf(look, words, width) {
    const point = (place) => this.map.latLngToContainerPoint(place);
    if (words.lies === "point") return [{ at: point(look.places[0]).add([0, words.away]), angle: 0 }];
    if (words.lies === "line") return alongOf(look.places.map(point), width, words.size);
    const outer = look.places.flat(Infinity);
    const points = [];
    for (let i = 0; i + 1 < outer.length; i += 2) points.push(point([outer[i], outer[i + 1]]));
    const { at, size } = middle(points);
    return size.x > width * 0.8 && size.y > words.size ? [{ at, angle: 0 }] : [];
  }
}
