#!/usr/bin/python3
"""Draws a box of the map: examples/draw.py --server URL --box WEST,SOUTH,EAST,NORTH [--credit TEXT] [--inches 8]
    PICTURE

The box is in degrees; PICTURE ends in .png, .svg or .pdf. Needs Debian's python3-matplotlib and python3-pyosmium. Closed
ways and multipolygons are filled by their tags, other ways are lines, nodes are points. Data of OpenStreetMap
wants the credit "© OpenStreetMap contributors".
"""

from __future__ import annotations

import argparse
import math
import sys
from typing import NamedTuple

from packages import need

need("matplotlib", "osmium", "PIL")

import matplotlib

matplotlib.use("Agg")
from matplotlib import pyplot
from matplotlib.collections import LineCollection, PathCollection
from matplotlib.path import Path
from PIL import Image

from export_osm import Box, box_of, read_box
from map_client import Client, Element, Key, Lost, Refused, key, references

Place = tuple[int, int]
Tags = dict[str, str]


class Style(NamedTuple):
    """What elements with a tag look like; of the styles that fit, the first counts, and it lies over those below."""

    tag: str
    values: str  # between spaces, or empty for any value
    colour: str
    width: float = 0

    def fits(self, tags: Tags) -> bool:
        return self.tag in tags and (not self.values or tags[self.tag] in self.values.split())


AREAS = (
    Style("building", "", "#c9b8ab", 0.3),
    Style("place", "islet island", "#b9d9a0"),
    Style("natural", "water", "#9cc5e0"),
    Style("waterway", "riverbank dock", "#9cc5e0"),
    Style("leisure", "garden pitch playground", "#cfe6b4"),
    Style("leisure", "park", "#bfe0a8"),
    Style("natural", "wood scrub", "#93bf86"),
    Style("landuse", "forest", "#93bf86"),
    Style("landuse", "vineyard orchard allotments", "#d3dd9c"),
    Style("landuse", "cemetery", "#bccfae"),
    Style("landuse", "meadow grass farmland", "#dcebc0"),
    Style("landuse", "residential commercial industrial retail", "#ebe6df"),
)
LINES = (
    Style("highway", "motorway trunk primary", "#e8925a", 2.6),
    Style("highway", "secondary tertiary", "#f4d06f", 2.1),
    Style("highway", "footway path steps cycleway track", "#c08457", 0.7),
    Style("highway", "", "#ffffff", 1.6),
    Style("railway", "", "#666666", 1.0),
    Style("waterway", "", "#7fb2d6", 0.8),
    Style("natural", "coastline", "#5b93b8", 1.0),
    Style("boundary", "", "#a070a0", 0.7),
    Style("barrier", "", "#888888", 0.4),
)
POINTS = (
    Style("natural", "tree", "#4f8a45", 1.2),
    Style("shop", "", "#8a3ea8", 5),
    Style("amenity", "", "#a8622c", 4),
    Style("barrier", "", "#555555", 2),
)


def style_of(styles: tuple[Style, ...], tags: Tags) -> tuple[Style, int] | None:
    """The first style that fits, and how high it lies."""
    return next(((style, len(styles) - place) for place, style in enumerate(styles) if style.fits(tags)), None)


def rings(lines: list[list[Place]]) -> list[list[Place]]:
    """Closed rings, joined of lines at their ends. What doesn't close isn't drawn."""
    left, closed = [list(line) for line in lines if len(line) > 1], []
    while left:
        ring = left.pop()
        while ring[0] != ring[-1]:
            following = next((it for it in left if ring[-1] in (it[0], it[-1])), None)
            if following is None:
                break
            left.remove(following)
            ring += following[1:] if following[0] == ring[-1] else following[-2::-1]
        if ring[0] == ring[-1] and len(ring) > 3:
            closed.append(ring)
    return closed


def turned(ring: list[Place], is_outer: bool) -> list[Place]:
    """Outer rings run against the clock and inner ones with it, so that inner ones are holes."""
    area = sum(x0 * y1 - x1 * y0 for (x0, y0), (x1, y1) in zip(ring, ring[1:], strict=False))
    return ring if (area > 0) == is_outer else ring[::-1]


class Drawing:
    """The elements of a box on a picture."""

    def __init__(self, elements: dict[Key, Element], box: Box, inches: float) -> None:
        self.elements = elements
        self.origin = box[:2]
        self.areas: dict[tuple[Style, int], list[Path]] = {}
        self.lines: dict[tuple[Style, int], list[list[Place]]] = {}
        west, south, east, north = box
        aspect = 1 / math.cos(math.radians((south + north) / 2e7))
        self.figure, self.axes = pyplot.subplots(figsize=(inches, inches * (north - south) * aspect / (east - west)))
        self.axes.set_position((0, 0, 1, 1))
        self.axes.set(xlim=(0, east - west), ylim=(0, north - south), xticks=[], yticks=[])
        self.axes.set(facecolor="#f3f0ea", aspect=aspect)
        self.axes.spines[:].set_visible(False)

    def place(self, number: int) -> Place:
        """East and north of the corner of the box, in units of 1e-7 degrees."""
        node = self.elements["node", number]
        return node["lon7"] - self.origin[0], node["lat7"] - self.origin[1]

    def line(self, way: int) -> list[Place]:
        """The places of a way; none where the box hasn't it."""
        return [self.place(number) for number in self.elements.get(("way", way), {"nodes": ()})["nodes"]]

    def area(self, outer: list[list[Place]], inner: list[list[Place]], tags: Tags) -> bool:
        """Whether it is drawn as an area."""
        found = style_of(AREAS, tags)
        closed = [turned(ring, True) for ring in rings(outer)]
        if found is None or not closed:
            return False
        closed += [turned(ring, False) for ring in rings(inner)]
        self.areas.setdefault(found, []).append(Path.make_compound_path(*(Path(ring, closed=True) for ring in closed)))
        return True

    def multipolygon(self, relation: Element) -> None:
        lines: dict[bool, list[list[Place]]] = {True: [], False: []}
        for member in relation["members"]:
            if member["type"] == "way":
                lines[member["role"] != "inner"].append(self.line(member["ref"]))
        self.area(lines[True], lines[False], relation["tags"])

    def way(self, way: Element) -> None:
        line, tags = self.line(way["id"]), way["tags"]
        is_closed = line[0] == line[-1] and tags.get("area") != "no"
        if is_closed and self.area([line], [], tags):
            return
        found = style_of(LINES, tags)
        if found:
            self.lines.setdefault(found, []).append(line)

    def draw(self) -> None:
        for relation in self.of("relation"):
            if relation["tags"].get("type") == "multipolygon":
                self.multipolygon(relation)
        for way in self.of("way"):
            self.way(way)
        for (style, height), paths in self.areas.items():
            look = {"facecolors": style.colour, "edgecolors": "#9a8878", "linewidths": style.width, "zorder": height}
            self.axes.add_collection(PathCollection(paths, **look))
        for (style, height), lines in self.lines.items():
            if style.tag == "highway" and style.width > 1:
                self.stroke(lines, "#a59c90", style.width + 0.6, 20)
            self.stroke(lines, style.colour, style.width, 20 + height)
        self.points()

    def stroke(self, lines: list[list[Place]], colour: str, width: float, height: int) -> None:
        self.axes.add_collection(LineCollection(lines, colors=colour, linewidths=width, capstyle="round", zorder=height))

    def points(self) -> None:
        places: dict[tuple[Style, int], list[Place]] = {}
        for node in self.of("node"):
            found = style_of(POINTS, node["tags"])
            if found:
                places.setdefault(found, []).append(self.place(node["id"]))
        for (style, height), some in places.items():
            self.axes.scatter(*zip(*some, strict=True), s=style.width, c=style.colour, linewidths=0, zorder=40 + height)

    def of(self, kind: str) -> list[Element]:
        return [it for name, it in self.elements.items() if name[0] == kind]

    def save(self, path: str, credit: str) -> None:
        if credit:
            box = {"facecolor": "white", "alpha": 0.8, "linewidth": 0, "pad": 2}
            look = {"ha": "right", "va": "bottom", "fontsize": 7, "bbox": box, "zorder": 99}
            self.axes.text(0.995, 0.006, credit, transform=self.axes.transAxes, **look)
        self.figure.savefig(path, dpi=120)
        if path.endswith(".png"):  # with a palette it has a third of the bytes
            Image.open(path).convert("RGB").quantize(256, method=Image.Quantize.FASTOCTREE).save(path, optimize=True)


def with_whole_areas(client: Client, elements: dict[Key, Element]) -> dict[Key, Element]:
    """The map of a box, and of its multipolygons the ways and nodes that lie elsewhere too."""
    more: dict[Key, Element] = {}
    for name, element in elements.items():
        is_area = name[0] == "relation" and element["tags"].get("type") == "multipolygon"
        if is_area and not elements.keys() >= set(references(element)):
            more.update((key(it), it) for it in client.ask("GET", f"relation/{name[1]}/full")["elements"])
    return {**more, **elements}


def main() -> int:
    parser = argparse.ArgumentParser(usage=(__doc__ or "").split("\n\n")[0].partition(": ")[2])
    parser.add_argument("--server", required=True)
    parser.add_argument("--box", type=box_of, required=True)
    parser.add_argument("--credit", default="")
    parser.add_argument("--inches", type=float, default=8)
    parser.add_argument("picture")
    it = parser.parse_args()
    try:
        client = Client(it.server)
        elements = with_whole_areas(client, read_box(client, it.box))
    except (Refused, Lost) as why:
        print(f"draw.py: {why}", file=sys.stderr)
        return 1
    drawing = Drawing(elements, it.box, it.inches)
    drawing.draw()
    drawing.save(it.picture, it.credit)
    print(f"{it.picture}: {len(elements)} elements")
    return 0


if __name__ == "__main__":
    sys.exit(main())
