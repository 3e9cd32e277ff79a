#!/usr/bin/python3
"""Writes a made-up town: examples/town.py [--blocks 24] [--seed 1] FILE

FILE is a .osm, .osm.pbf or the like; needs Debian's python3-pyosmium. The town lies in the Atlantic and has the
shapes that extracts of real maps have: large ids with gaps, crossings that ways share, terraces that share corners,
closed ways, courtyards and a river as multipolygons, a way of 2,000 nodes, turn restrictions, routes and their
master, a boundary that lists what the extract hasn't, relations in a circle, names in many scripts, and nodes at the
edges of the globe. With 24 blocks a side it has some 30,000 elements. The same words write the same town.
"""

from __future__ import annotations

import argparse
import math
import os
import random
import sys

import osm_file
from map_client import Element

BLOCK = 90.0  # metres from street to street
SOUTH, WEST = 45.0, -30.0
UNITS = 1e7 / 111195  # of 1e-7 degrees in a metre
NAMES = (
    "Lindenallee", "Rue de l'Église", "Площадь Мира", "中山路", "شارع النيل", "רחוב הים", "महात्मा गांधी मार्ग", "さくら通り",
    "Οδός Ερμού", "한강로", "ถนนสุขุมวิท", "ძველი ქუჩა", "Հանրապետության", "የሰላም መንገድ", "Đường Lê Lợi", "🌳 lane ☀", "a&b <\"c\">",
)  # fmt: skip
SHOPS = ({"shop": "bakery"}, {"amenity": "cafe", "cuisine": "coffee_shop;cake"}, {"amenity": "pharmacy"}, {"amenity": "post_box"})
Place = tuple[float, float]


class Town:
    def __init__(self, blocks: int, seed: int) -> None:
        self.blocks, self.draw = blocks, random.Random(seed)
        self.elements: list[Element] = []
        self.last = {"node": 1_000_000_000, "way": 40_000_000, "relation": 900_000}
        self.crossings = [[self.node((x * BLOCK, y * BLOCK)) for x in range(blocks + 1)] for y in range(blocks + 1)]
        self.side = blocks * BLOCK

    # ---- elements

    def number(self, kind: str) -> int:
        self.last[kind] += self.draw.choice((1, 1, 1, 2, 7, 1000))
        return self.last[kind]

    def add(self, kind: str, tags: dict[str, str], **more: object) -> int:
        number = self.number(kind)
        self.elements.append({"type": kind, "id": number, "tags": tags, **more})
        return number

    def node(self, place: Place, /, **tags: str) -> int:
        """A node so many metres east and north; the grid is bent a little, as towns are."""
        east, north = place
        east, north = east + 45 * math.sin(north / 380), north + 40 * math.sin(east / 520)
        lat7 = round(SOUTH * 1e7 + north * UNITS)
        return self.add("node", tags, lat7=lat7, lon7=round(WEST * 1e7 + east * UNITS / math.cos(math.radians(SOUTH))))

    def way(self, nodes: list[int], **tags: str) -> int:
        return self.add("way", tags, nodes=nodes)

    def ring(self, places: list[Place], **tags: str) -> int:
        nodes = [self.node(place) for place in places]
        return self.way([*nodes, nodes[0]], **tags)

    def relation(self, members: list[tuple[str, int, str]], number: int = 0, /, **tags: str) -> int:
        number = number or self.number("relation")
        listed = [{"type": kind, "ref": ref, "role": role} for kind, ref, role in members]
        self.elements.append({"type": "relation", "id": number, "tags": tags, "members": listed})
        return number

    def multipolygon(self, outer: list[int], inner: list[int], **tags: str) -> int:
        members = [("way", it, "outer") for it in outer] + [("way", it, "inner") for it in inner]
        return self.relation(members, type="multipolygon", **tags)

    # ---- the town

    def name(self) -> str:
        return f"{self.draw.choice(NAMES)} {self.draw.randint(1, 99)}"

    def river(self, east: float) -> float:
        """How far north the middle of the river is."""
        return self.side * 0.42 + 0.09 * self.side * math.sin(east / self.side * 7)

    def streets(self) -> list[list[int]]:
        """Each line of the grid in pieces, which share the crossings; the pieces of each line."""
        lines = self.crossings + [list(line) for line in zip(*self.crossings, strict=True)]
        pieces = []
        for place, line in enumerate(lines):
            kind = "primary" if place % 8 == 4 else "secondary" if place % 4 == 0 else "residential"
            start, some = 0, []
            while start < self.blocks:
                end = min(self.blocks, start + self.draw.randint(2, 7))
                lanes = {"oneway": "yes"} if self.draw.random() < 0.15 else {"maxspeed": "50"}
                some.append(self.way(line[start : end + 1], highway=kind, name=self.name(), **lanes))
                start = end
            pieces.append(some)
        return pieces

    def block(self, x: int, y: int) -> None:
        west, south = x * BLOCK + 9, y * BLOCK + 9
        middle = (west + BLOCK / 2, south + BLOCK / 2)
        from_river = abs(middle[1] - self.river(middle[0]))
        if from_river < 75:
            return
        if from_river < 150 or self.draw.random() < 0.07:
            self.park(west, south)
        elif self.draw.random() < 0.2:
            self.courtyard(west, south)
        else:
            self.terraces(west, south)

    def terraces(self, west: float, south: float) -> None:
        """Two rows of houses; neighbours share a wall, so its two corners."""
        for row in (0, 44):
            depth = self.draw.uniform(10, 18)
            walls, at = [], west + 2
            while at < west + 70:
                walls.append((self.node((at, south + row)), self.node((at, south + row + depth))))
                at += self.draw.uniform(7, 16)
            for number, (left, right) in enumerate(zip(walls, walls[1:], strict=False)):
                tags = {"building": "house"}
                if self.draw.random() < 0.5:
                    tags.update({"addr:housenumber": str(2 * number + 1), "addr:street": self.name()})
                self.way([left[0], right[0], right[1], left[1], left[0]], **tags)
        for _ in range(self.draw.randint(0, 5)):
            self.node((west + self.draw.uniform(5, 65), south + self.draw.uniform(22, 42)), natural="tree")
        if self.draw.random() < 0.4:
            tags = {"name": self.name(), "name:en": "shop", "opening_hours": "Mo-Fr 08:00-18:00", **self.draw.choice(SHOPS)}
            self.node((west + 35, south + 5), **tags)

    def courtyard(self, west: float, south: float) -> None:
        """A house around one or two courtyards, and a garden in the first."""
        outer = self.ring(square(west + 4, south + 4, 64, 60))
        inner = [self.ring(square(west + 14, south + 14, 18, 36), leisure="garden")]
        if self.draw.random() < 0.5:
            inner.append(self.ring(square(west + 40, south + 14, 18, 36)))
        self.multipolygon([outer], inner, building="apartments", name=self.name())

    def park(self, west: float, south: float) -> None:
        """A pond in a park, a path past it, and trees."""
        pond = self.ring(circle(west + 36, south + 38, 15, 14), natural="water")
        edge = self.ring(square(west, south, 72, 72))
        self.multipolygon([edge], [pond], leisure="park", name=self.name())
        path = [self.node((west + t * 7.2, south + 8 + 5 * math.sin(t))) for t in range(11)]
        self.way(path, highway="footway", surface="gravel")
        self.node((west + 36, south + 16), amenity="bench")
        for _ in range(self.draw.randint(4, 12)):
            self.node((west + self.draw.uniform(3, 69), south + self.draw.uniform(56, 69)), natural="tree")

    def water(self) -> None:
        """The river: its line, and its area of two banks and two ends, with an island."""
        steps = [i * self.side / 300 for i in range(-8, 309)]
        self.way([self.node((at, self.river(at))) for at in steps], waterway="river", name="Река / River / 川")
        banks = [[self.node((at, self.river(at) + side)) for at in steps] for side in (-26, 26)]
        edges = [self.way(bank) for bank in banks]
        edges += [self.way([banks[0][end], banks[1][end]]) for end in (0, -1)]
        shore = circle(self.side * 0.57, 0, 60, 24)
        island = self.ring([(east, self.river(east) + north / 5) for east, north in shore], place="islet")
        self.multipolygon(edges, [island], natural="water", water="river")

    def around(self) -> int:
        """Woods at two sides with a clearing, and a coast as long as a way may be; the boundary that they are in."""
        western = square(-0.14 * self.side, self.side * 0.55, 0.1 * self.side, 0.4 * self.side)
        eastern = square(self.side * 1.04, self.side * 0.02, 0.1 * self.side, 0.3 * self.side)
        woods = [self.ring(western), self.ring(eastern)]
        clearing = self.ring(circle(-0.09 * self.side, self.side * 0.75, 0.03 * self.side, 20), landuse="meadow")
        self.multipolygon(woods, [clearing], natural="wood")
        coast = [self.node((-0.2 * self.side + 14 * math.sin(t / 9), t * self.side / 1999)) for t in range(2000)]
        self.way(coast, natural="coastline")
        frame = square(-0.18 * self.side, -0.05 * self.side, 1.36 * self.side, 1.1 * self.side)
        edge = self.ring(frame, boundary="administrative")
        names = {f"name:{place:02}": name for place, name in enumerate(NAMES)}
        middle = self.node((self.side / 2, self.side / 2), place="town", name="Made-up", **names)
        # The last two members lie outside of the extract.
        members = [("way", edge, "outer"), ("node", middle, "admin_centre"), ("relation", 17, "subarea"), ("way", 4711, "outer")]
        return self.relation(members, type="boundary", boundary="administrative", admin_level="8", note="x" * 255)

    def rules(self, pieces: list[list[int]]) -> None:
        """Turns that are forbidden, buses, three sites in a circle and one that lists itself."""
        nodes = {it["id"]: it["nodes"] for it in self.elements if it["type"] == "way"}
        for line in pieces:
            for first, second in zip(line, line[1:], strict=False):
                if self.draw.random() < 0.3:
                    members = [("way", first, "from"), ("node", nodes[first][-1], "via"), ("way", second, "to")]
                    self.relation(members, type="restriction", restriction="no_u_turn")
        self.routes(pieces, nodes)
        sites = [self.number("relation") for _ in range(4)]
        for site, other in zip(sites, [*sites[1:3], sites[0], sites[3]], strict=True):
            self.relation([("relation", other, "part")], site, type="site", name="◯")

    def routes(self, pieces: list[list[int]], nodes: dict[int, list[int]]) -> None:
        """Buses with their stops, and their master, whose id is lower than theirs."""
        master, buses = self.number("relation"), []
        for ref, line in enumerate(pieces[::4], 1):
            stops = [("node", nodes[it][0], "platform") for it in line]
            tags = {"type": "route", "route": "bus", "ref": str(ref), "name": self.name()}
            buses.append(self.relation([*stops, *(("way", it, "") for it in line)], **tags))
        self.relation([("relation", it, "") for it in buses], master, type="route_master", route_master="bus")

    def edges(self) -> None:
        """Nodes at the edges of the globe, two at one place, and a way that comes back to itself."""
        for lat7, lon7 in ((900_000_000, 0), (-900_000_000, 1_800_000_000), (1, -1_800_000_000), (0, 0), (0, 0)):
            self.add("node", {"note": "edge"}, lat7=lat7, lon7=lon7)
        some = [self.node((self.side + 20 * i, -60 - 15 * (i % 2))) for i in range(4)]
        self.way([some[0], some[1], some[2], some[1], some[3]], barrier="fence")

    def build(self) -> list[Element]:
        pieces = self.streets()
        for y in range(self.blocks):
            for x in range(self.blocks):
                self.block(x, y)
        self.water()
        self.around()
        self.rules(pieces)
        self.edges()
        return self.elements


def square(west: float, south: float, width: float, height: float) -> list[Place]:
    return [(west, south), (west + width, south), (west + width, south + height), (west, south + height)]


def circle(east: float, north: float, radius: float, count: int) -> list[Place]:
    turns = (2 * math.pi * i / count for i in range(count))
    return [(east + radius * math.cos(turn), north + radius * math.sin(turn)) for turn in turns]


def main() -> int:
    parser = argparse.ArgumentParser(usage=(__doc__ or "").split("\n\n")[0].partition(": ")[2])
    parser.add_argument("--blocks", type=int, default=24)
    parser.add_argument("--seed", type=int, default=1)
    parser.add_argument("file")
    it = parser.parse_args()
    if os.path.exists(it.file):
        sys.exit(f"{it.file} is there already")
    elements = Town(it.blocks, it.seed).build()
    osm_file.write(it.file, elements)
    print(f"{it.file}: {len(elements)} elements")
    return 0


if __name__ == "__main__":
    sys.exit(main())
