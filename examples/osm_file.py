"""Files of OpenStreetMap, read and written by pyosmium (Debian's python3-pyosmium), in the shape of the server's JSON."""

from __future__ import annotations

from collections.abc import Iterable, Mapping
from typing import Any

from packages import need

need("osmium")

import osmium
import osmium.osm.mutable as mutable

from map_client import KINDS, Element, Key

LETTERS = {"n": "node", "w": "way", "r": "relation"}
BUFFER = 4 << 20  # bytes, as pyosmium has it
Box = tuple[int, int, int, int]  # west, south, east, north, in units of 1e-7 degrees
LETTER_OF = {kind: letter for letter, kind in LETTERS.items()}


class Reader(osmium.SimpleHandler):
    """The last version of each element of a file; one that the file deletes has `deleted`."""

    def __init__(self) -> None:
        super().__init__()
        self.elements: dict[Key, Element] = {}

    def keep(self, kind: str, it: Any, **more: Any) -> None:
        element = {"type": kind, "id": it.id, "tags": {tag.k: tag.v for tag in it.tags}, **more}
        self.elements[kind, it.id] = {"type": kind, "id": it.id, "deleted": True} if it.deleted else element

    def node(self, it: Any) -> None:
        place = it.location
        self.keep("node", it, **({"lat7": place.y, "lon7": place.x} if place.valid() else {}))

    def way(self, it: Any) -> None:
        self.keep("way", it, nodes=[node.ref for node in it.nodes])

    def relation(self, it: Any) -> None:
        members = [{"type": LETTERS[member.type], "ref": member.ref, "role": member.role} for member in it.members]
        self.keep("relation", it, members=members)


def read(path: str) -> dict[Key, Element]:
    """The elements of a `.osm`, `.osm.pbf`, `.osc` or packed file: nodes, then ways, then relations, in its order."""
    reader = Reader()
    reader.apply_file(path)
    order = {kind: place for place, kind in enumerate(KINDS)}
    return dict(sorted(reader.elements.items(), key=lambda it: order[it[0][0]]))


def mutable_of(it: Element) -> Any:
    """The element as pyosmium writes it; who made it and when is there where the server told it. A deleted one has no content."""
    given = {name: it[name] for name in ("version", "changeset", "uid", "user", "timestamp") if name in it}
    given.update(id=it["id"], tags=it.get("tags", {}), visible=it.get("visible", True))
    if it["type"] == "node":
        place: dict[str, Any] = {"location": (it["lon7"] / 1e7, it["lat7"] / 1e7)} if "lat7" in it else {}
        return mutable.Node(**place, **given)
    if it["type"] == "way":
        return mutable.Way(nodes=it.get("nodes", ()), **given)
    members = [(LETTER_OF[member["type"]], member["ref"], member["role"]) for member in it.get("members", ())]
    return mutable.Relation(members=members, **given)


class Writer:
    """A new file, of the form that the end of its name says: a .osh.pbf has every version with whether it is visible.

    Elements are added by kind and id, their versions in turn. The file is whole behind the end of a `with`.
    """

    def __init__(self, path: str, headers: Mapping[str, str], box: Box | None = None) -> None:
        header = osmium.io.Header()
        header.has_multiple_object_versions = ".osh" in path
        for name, value in headers.items():
            header.set(name, value)
        if box is not None:
            header.add_box(osmium.osm.Box(*(it / 1e7 for it in box)))
        self.writer = osmium.SimpleWriter(path, BUFFER, header)
        self.adders = {kind: getattr(self.writer, f"add_{kind}") for kind in KINDS}

    def add(self, it: Element) -> None:
        self.adders[it["type"]](mutable_of(it))

    def __enter__(self) -> Writer:
        return self

    def __exit__(self, *_: object) -> None:
        self.writer.close()


def box_around(boxes: Iterable[Box]) -> Box | None:
    """The least box that has all of these; none of none."""
    found: Box | None = None
    for west, south, east, north in boxes:
        if found is None:
            found = west, south, east, north
        found = min(found[0], west), min(found[1], south), max(found[2], east), max(found[3], north)
    return found


def box_of_nodes(elements: Iterable[Element]) -> Box | None:
    return box_around((it["lon7"], it["lat7"], it["lon7"], it["lat7"]) for it in elements if "lat7" in it)


def write(path: str, elements: Iterable[Element], headers: Mapping[str, str] | None = None, box: Box | None = None) -> None:
    """Nodes, then ways, then relations, each by id."""
    order = {kind: place for place, kind in enumerate(KINDS)}
    with Writer(path, headers or {}, box) as writer:
        for it in sorted(elements, key=lambda it: (order[it["type"]], it["id"])):
            writer.add(it)
