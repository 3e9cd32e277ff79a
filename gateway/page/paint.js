/** What an element looks like, by its tags: the colours that maps of OpenStreetMap usually have. */

const road = (color, casing, width) => ({ sort: "road", color, casing, width });
const ROADS = {
  motorway: road("#e892a2", "#dc2a67", 8), trunk: road("#f9b29c", "#c84e2f", 7), primary: road("#fcd6a4", "#a06b00", 7),
  secondary: road("#f7fabf", "#707d05", 6), tertiary: road("#ffffff", "#8f8f8f", 6), unclassified: road("#ffffff", "#bbbbbb", 5),
  residential: road("#ffffff", "#bbbbbb", 5), living_street: road("#ededed", "#bbbbbb", 5), pedestrian: road("#dddde8", "#999999", 5),
  service: road("#ffffff", "#bbbbbb", 3), track: road("#996600", null, 2), cycleway: road("#0000ff", null, 2),
  footway: road("#fa8072", null, 2), path: road("#fa8072", null, 2), steps: road("#fa8072", null, 3), bridleway: road("#008000", null, 2),
};
const DASHED = new Set(["footway", "path", "cycleway", "track", "bridleway", "steps"]);
const ORDER = Object.keys(ROADS);

const AREAS = [
  ["natural", { water: "#aad3df", bay: "#aad3df", wood: "#add19e", scrub: "#c8d7ab", grassland: "#cdebb0", heath: "#d6d99f", wetland: "#d6e8d0",
    beach: "#fff1ba", sand: "#f5e9c6", bare_rock: "#eee5dc", glacier: "#ddecec" }],
  ["waterway", { riverbank: "#aad3df", dock: "#aad3df" }],
  ["leisure", { park: "#c8facc", garden: "#cdebb0", pitch: "#aae0cb", playground: "#dffce2", swimming_pool: "#aad3df", golf_course: "#def6c0" }],
  ["landuse", { forest: "#add19e", grass: "#cdebb0", meadow: "#cdebb0", farmland: "#eef0d5", orchard: "#aedfa3", vineyard: "#aedfa3",
    residential: "#e0dfdf", commercial: "#f2dad9", industrial: "#ebdbe8", retail: "#ffd6d1", cemetery: "#aacbaf", basin: "#aad3df",
    reservoir: "#aad3df", allotments: "#c9e1bf", quarry: "#c5c3c3" }],
  ["amenity", { parking: "#eeeeee", school: "#ffffe5", university: "#ffffe5", hospital: "#ffffe5", grave_yard: "#aacbaf" }],
];
const WATERWAYS = { river: 6, canal: 5, stream: 2, ditch: 1, drain: 1 };

/** Lower is drawn earlier: areas, water, buildings, roads by weight, points. */
const LEVELS = { area: 0, waterway: 1, building: 2, line: 3, road: 4 };

/** The value of a table's own key: a tag may have the name of something that every object has, as `constructor`. */
const of = (table, key) => (key !== undefined && Object.hasOwn(table, key) ? table[key] : undefined);

function areaColor(tags) {
  for (const [key, colors] of AREAS) if (of(colors, of(tags, key))) return colors[tags[key]];
  return null;
}

/** How a way or a multipolygon is drawn: `closed` is whether its ends meet. */
export function lookOf(tags, closed) {
  if (closed && tags.building && tags.building !== "no") {
    return { sort: "building", level: LEVELS.building, style: { color: "#c4b6ab", weight: 1, fill: true, fillColor: "#d9d0c9", fillOpacity: 1 } };
  }
  const fill = closed ? areaColor(tags) : null;
  const isRoad = of(ROADS, tags.highway);
  if (fill && !(isRoad && tags.area !== "yes")) {
    return { sort: "area", level: LEVELS.area, style: { stroke: false, fill: true, fillColor: fill, fillOpacity: 1 } };
  }
  if (isRoad) {
    const style = { color: isRoad.color, weight: isRoad.width, dashArray: DASHED.has(tags.highway) ? "4 4" : null, fill: false };
    const casing = isRoad.casing ? { color: isRoad.casing, weight: isRoad.width + 2, fill: false } : null;
    return { sort: "road", level: LEVELS.road + (ORDER.length - ORDER.indexOf(tags.highway)) / 100, style, casing };
  }
  if (tags.railway) return { sort: "line", level: LEVELS.line, style: { color: "#707070", weight: 3, dashArray: "8 6", fill: false } };
  if (tags.waterway) {
    return { sort: "waterway", level: LEVELS.waterway, style: { color: "#aad3df", weight: of(WATERWAYS, tags.waterway) ?? 2, fill: false } };
  }
  if (tags.boundary) return { sort: "line", level: LEVELS.line, style: { color: "#a86bb5", weight: 2, dashArray: "10 5", fill: false } };
  const bare = Object.keys(tags).length === 0;
  return { sort: "line", level: LEVELS.line, style: { color: bare ? "#c9c4bb" : "#8a8073", weight: bare ? 1 : 2, fill: false } };
}

const POINTS = { tree: "#3f8a3a", shop: "#ac39ac", amenity: "#734a08", tourism: "#0092da", highway: "#666666", barrier: "#666666", place: "#222222" };

/** How a node with tags is drawn. */
export function pointOf(tags) {
  const key = tags.natural === "tree" ? "tree" : Object.keys(POINTS).find((name) => tags[name]);
  return { radius: tags.place ? 6 : 4, color: "#ffffff", weight: 1, fill: true, fillColor: POINTS[key] ?? "#7a6f9b", fillOpacity: 1 };
}

/** A name for people. */
export function nameOf(it) {
  const tags = it.tags ?? {};
  const sort = ["building", "highway", "natural", "landuse", "leisure", "amenity", "shop", "waterway", "railway", "barrier", "type"].find((key) => tags[key]);
  const what = sort ? (tags[sort] === "yes" ? sort : tags[sort].replaceAll("_", " ")) : "";
  return tags.name ?? (tags["addr:housenumber"] ? `${what} ${tags["addr:housenumber"]}`.trim() : what);
}
