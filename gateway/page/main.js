/** The page: which part is shown, which box and which moment the map is of, and what its address says. */

import * as L from "/leaflet/leaflet.esm.js";
import * as api from "./api.js";
import { elementPath, go, listen, placeOf, routeOf } from "./addresses.js";
import { boxOf, Changesets } from "./changesets.js";
import { byId, make, tell } from "./dom.js";
import { Drawing } from "./draw.js";
import { follow, showElement } from "./element.js";
import { farTiles, FAR } from "./far.js";
import { Labels } from "./labels.js";
import { Notes } from "./notes.js";
import { nameOf } from "./paint.js";
import { Past } from "./past.js";

const AREA = 0.25;
const WAIT = 150;
const PARTS = ["element", "changesets", "notes", "caller"];

const map = L.map("map", { preferCanvas: true, zoomAnimation: false, maxZoom: 20, minZoom: 2 });
map.attributionControl.setPrefix("Leaflet");
L.control.scale({ imperial: false }).addTo(map);

const drawing = new Drawing(map, choose);
const labels = new Labels(map);
const changesets = new Changesets(map, (path) => { go(path); open(); });
const notes = new Notes(map, (id) => { show("notes"); if (id) stay(`/note/${id}`); });
const past = new Past((at) => { follow(at); load(); });
let running = null;
let timer = 0;

// ---- parts of the panel

function show(part) {
  for (const name of PARTS) byId(name).hidden = name !== part;
  for (const button of document.querySelectorAll("nav button")) button.setAttribute("aria-pressed", String(button.dataset.part === part));
  changesets.showBoxes();
}

for (const button of document.querySelectorAll("nav button")) {
  button.addEventListener("click", async () => {
    show(button.dataset.part);
    if (button.dataset.part === "changesets") past.take(await changesets.load());
  });
}

function choose(it, place) {
  if (notes.waits) {
    notes.at(place);
    return null;
  }
  drawing.choose(it);
  show("element");
  stay(elementPath(it));
  return showElement(it, past.at);
}

// ---- the map

/** What is drawn of a box, and the line that says what isn't. */
async function drawn(bounds, signal) {
  const near = map.getZoom() > FAR.most;
  if (near && api.area(bounds) <= AREA) {
    try {
      const elements = await api.map(bounds, past.at, signal);
      drawing.show(elements);
      return [elements.length, elements.length ? "" : "There is nothing here"];
    } catch (why) {
      if (why.status !== 400) throw why;
    }
  }
  if (map.getZoom() < FAR.least) {
    drawing.put([]);
    changesets.showFar();
    return [0, "Boxes of the newest changesets: zoom in to see the map"];
  }
  const tiles = await farTiles(bounds, Math.min(map.getZoom(), FAR.most), past.at, signal);
  drawing.showFar(tiles);
  const count = drawing.drawn.size;
  const whole = tiles.every((it) => it.whole) ? "" : ", not of all of the box";
  return [count, count ? `Main roads, water and places${whole}: zoom in to see all` : "There is nothing here from afar: zoom in to see all"];
}

async function load() {
  running?.abort();
  running = new AbortController();
  const { signal } = running;
  const bounds = map.getBounds();
  changesets.showBoxes();
  try {
    tell("…");
    const [count, line] = await drawn(bounds, signal);
    tell(line);
    document.body.dataset.drawn = String(count);
  } catch (why) {
    if (why.name === "AbortError") return;
    drawing.put([]);
    tell(why.message);
  }
  labels.show(drawing.drawn.values());
  await notes.load(past.at, signal);
  document.body.dataset.at = String(past.at ?? "now");
}

map.on("moveend", () => {
  const { lat, lng } = map.getCenter();
  history.replaceState(null, "", `#map=${map.getZoom()}/${lat.toFixed(5)}/${lng.toFixed(5)}`);
  clearTimeout(timer);
  timer = setTimeout(load, WAIT);
});
map.on("click", (event) => notes.waits && notes.at(event.latlng));

// ---- choosing by keys

/** The elements around the middle, in the order in which Enter goes through them. */
let around = { at: null, rows: [], place: -1 };

function next(step) {
  const centre = map.getCenter();
  if (!around.at?.equals(centre) || !around.rows.length) around = { at: centre, rows: drawing.near(centre, 60).slice(0, 50), place: step > 0 ? -1 : 0 };
  const count = around.rows.length;
  if (!count) {
    tell("There is nothing in the middle of the map");
    return;
  }
  around.place = (around.place + step + count) % count;
  const it = around.rows[around.place];
  choose(it, centre);
  tell(`${around.place + 1} of ${count}: ${it.type} ${it.id}${nameOf(it) ? `, ${nameOf(it)}` : ""}. Enter goes on, Shift and Enter back, Tab leads to it`);
}

// Who works by keys is shown where the middle is.
addEventListener("keydown", () => (document.body.dataset.by = "keys"), true);
addEventListener("pointerdown", () => delete document.body.dataset.by, true);
map.getContainer().addEventListener("keydown", (event) => {
  if (event.key !== "Enter" || event.target !== map.getContainer()) return;
  if (notes.waits) notes.at(map.getCenter());
  else next(event.shiftKey ? -1 : 1);
});

// ---- addresses

const shows = {
  async element(kind, id) {
    const it = { type: kind, id: Number(id) };
    drawing.choose(it);
    show("element");
    await showElement(it, past.at);
    const rows = await api.full(kind, id).catch(() => []);
    const places = rows.filter((row) => row.lat !== undefined).map((row) => [row.lat, row.lon]);
    return places.length ? L.latLngBounds(places) : null;
  },
  async changeset(id) {
    show("changesets");
    return changesets.show(id);
  },
  async note(id) {
    show("notes");
    const place = await notes.open(id);
    return place && L.latLngBounds([place]);
  },
  async user(name) {
    show("changesets");
    past.take(await changesets.of(name));
    return changesets.rows.map(boxOf).find((it) => it !== null) ?? null;
  },
  async changesets() {
    show("changesets");
    past.take(await changesets.of(undefined));
    return null;
  },
};

/** The path that is shown. */
let opened = "";

/** The address becomes that of what is shown already. */
function stay(path) {
  go(path);
  opened = path;
}

/** Shows what the address says; where it says no place the map goes to what is shown. */
async function open() {
  const place = placeOf(location.hash);
  const here = map._loaded ? map.getCenter() : null;
  const isHere = here && place && place.zoom === map.getZoom() && Math.abs(here.lat - place.lat) < 1e-4 && Math.abs(here.lng - place.lon) < 1e-4;
  if (place && !isHere) map.setView([place.lat, place.lon], place.zoom);
  const route = routeOf(location.pathname);
  const asked = location.pathname;
  const isShown = opened === asked;
  opened = asked;
  if (isShown || !route) return;
  const box = await shows[route.name](...route.parts);
  document.title = `${route.parts.join(" ") || "Changesets"} · Hegunsap`;
  if (!box || opened !== asked || (place && !isHere)) return;
  if (!map._loaded || !map.getBounds().contains(box)) map.fitBounds(box, { maxZoom: 18, padding: [30, 30] });
}

/** Where the address says, or what it is of, or at the newest changeset that has a box, or the world. */
async function start() {
  await open();
  // An address of a user has listed theirs.
  const rows = changesets.rows.length ? changesets.rows : await changesets.load();
  past.take(rows);
  if (map._loaded) return;
  const box = rows.map(boxOf).find((it) => it !== null);
  if (box) map.setView(box.getCenter(), Math.max(16, Math.min(18, map.getBoundsZoom(box))));
  else map.setView([20, 0], 2);
}

listen(open);
byId("older").addEventListener("click", async () => past.take(await changesets.older()));

// ---- who calls

byId("caller").querySelector("form").addEventListener("submit", async (event) => {
  event.preventDefault();
  api.useToken(byId("token").value.trim());
  try {
    byId("who").textContent = api.hasToken() ? `This is ${(await api.user()).display_name}.` : "Reading needs none.";
  } catch (why) {
    api.useToken("");
    byId("who").textContent = why.message;
  }
});

/** A link to iD, where the gateway has it. */
async function offerEditor() {
  if (!(await api.hasEditor())) return;
  const it = make("a", { href: "/id/", id: "edit" }, "Edit with iD");
  it.addEventListener("click", () => { it.href = `/id/${location.hash}`; });
  byId("past").append(it);
}

show("element");
start();
offerEditor();
