/** Rings of a multipolygon, joined from its ways where their ends meet. */

/** Joins lists of node ids to closed ones; what stays open is left out. */
export function ringsOf(ways) {
  const rings = [];
  const open = ways.filter((nodes) => nodes.length > 1).map((nodes) => [...nodes]);
  while (open.length) {
    const ring = open.pop();
    while (ring[0] !== ring.at(-1)) {
      const place = open.findIndex((nodes) => nodes[0] === ring.at(-1) || nodes.at(-1) === ring.at(-1));
      if (place < 0) break;
      const [next] = open.splice(place, 1);
      if (next[0] !== ring.at(-1)) next.reverse();
      ring.push(...next.slice(1));
    }
    if (ring.length > 3 && ring[0] === ring.at(-1)) rings.push(ring);
  }
  return rings;
}

function isWithin([lat, lon], ring) {
  let within = false;
  for (let i = 0, j = ring.length - 1; i < ring.length; j = i++) {
    const [a, b] = [ring[i], ring[j]];
    if (a[1] > lon !== b[1] > lon && lat < ((b[0] - a[0]) * (lon - a[1])) / (b[1] - a[1]) + a[0]) within = !within;
  }
  return within;
}

/** Polygons with their holes, as places: of the ways of a relation that are there whole. */
export function polygonsOf(relation, ways, places) {
  const nodesOf = (role) =>
    relation.members.filter((it) => it.type === "way" && (it.role || "outer") === role && ways.has(it.ref)).map((it) => ways.get(it.ref).nodes);
  const placed = (rings) => rings.filter((ring) => ring.every((id) => places.has(id))).map((ring) => ring.map((id) => places.get(id)));
  const inner = placed(ringsOf(nodesOf("inner")));
  return placed(ringsOf(nodesOf("outer"))).map((ring) => [ring, ...inner.filter((hole) => isWithin(hole[0], ring))]);
}
