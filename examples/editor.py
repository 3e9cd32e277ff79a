#!/usr/bin/env python3
"""Maps a park, and meets another mapper: examples/editor.py --server URL --token TOKEN --other-token TOKEN

Opens a changeset, adds a park with a pond, a path and a gate, moves the gate while the other one tags it,
merges both and sends again, and tells what it did. The tokens are those of two users of the server.
"""

from __future__ import annotations

import argparse
import sys
from typing import Any

from map_client import Client, Element, Key, Lost, Refused

SOUTH, WEST = 481400000, 115400000
# Each corner with its metres north and east of the south-western one.
CORNERS = {-1: (0, 0), -2: (0, 180), -3: (120, 180), -4: (120, 0)}
BANK = {-5: (50, 60), -6: (50, 100), -7: (80, 100), -8: (80, 60)}
GATE, BENCH = -9, -10


def place(north: float, east: float) -> dict[str, int]:
    """So many metres from the corner, in units of 1e-7 degrees: a degree of latitude has 111,195 metres."""
    return {"lat7": SOUTH + round(north * 89.93), "lon7": WEST + round(east * 134.8)}


def node(number: int, north: float, east: float, **tags: str) -> Element:
    return {"type": "node", "id": number, **place(north, east), "tags": tags}


def way(number: int, nodes: list[int], **tags: str) -> Element:
    return {"type": "way", "id": number, "nodes": nodes, "tags": tags}


def park() -> list[Element]:
    """New elements have negative numbers; each stands behind those that it lists."""
    nodes = [node(number, *where) for number, where in {**CORNERS, **BANK}.items()]
    nodes += [node(GATE, 0, 90, barrier="gate"), node(BENCH, 40, 90, amenity="bench", backrest="yes")]
    edge = way(-1, [-1, GATE, -2, -3, -4, -1])
    bank = way(-2, [*BANK, -5], natural="water", water="pond")
    path = way(-3, [GATE, BENCH, -7], highway="path", surface="gravel")
    members = [{"type": "way", "ref": -1, "role": "outer"}, {"type": "way", "ref": -2, "role": "inner"}]
    tags = {"type": "multipolygon", "leisure": "park", "name": "Pond Park"}
    return [*nodes, edge, bank, path, {"type": "relation", "id": -1, "members": members, "tags": tags}]


class Mapper:
    """A user with a changeset."""

    def __init__(self, server: str, token: str, comment: str) -> None:
        self.client = Client(server, token)
        tags = {"comment": comment, "created_by": "editor.py"}
        self.changeset: int = self.client.ask("PUT", "changeset/create", {"tags": tags})

    def upload(self, action: str, elements: list[Element]) -> list[dict[str, Any]]:
        change = {"osmChange": [{action: elements}]}
        rows: list[dict[str, Any]] = self.client.ask("POST", f"changeset/{self.changeset}/upload", change)["diffResult"]
        return rows

    def read(self, kind: str, number: int) -> Element:
        it: Element = self.client.ask("GET", f"{kind}/{number}")["elements"][0]
        return it

    def close(self) -> dict[str, Any]:
        self.client.ask("PUT", f"changeset/{self.changeset}/close")
        it: dict[str, Any] = self.client.ask("GET", f"changeset/{self.changeset}")["changeset"]
        return it


def merged(base: Element, mine: Element, theirs: Element) -> Element:
    """Theirs, with what I changed of the base; where both changed a tag, theirs stays."""
    result = {**theirs, "tags": dict(theirs["tags"])}
    for name in ("lat7", "lon7"):
        if mine[name] != base[name] and theirs[name] == base[name]:
            result[name] = mine[name]
    for tag in {*base["tags"], *mine["tags"]}:
        before = base["tags"].get(tag)
        if mine["tags"].get(tag) == before or theirs["tags"].get(tag) != before:
            continue
        result["tags"].pop(tag, None)
        result["tags"].update({tag: mine["tags"][tag]} if tag in mine["tags"] else {})
    return result


def save(mapper: Mapper, base: Element, mine: Element) -> int:
    """Sends a changed element until no other version came between; its new version."""
    while True:
        try:
            return int(mapper.upload("modify", [mine])[0]["new_version"])
        except Refused as why:
            if why.error != "version":
                raise
            theirs = mapper.read(mine["type"], mine["id"])
            who, found = theirs["user"], why.why["found"]
            print(f"  refused: {mine['type']} {mine['id']} has version {found} by {who}, and I changed version {base['version']}")
            print(f"  {who} gave it the tags {shown(theirs['tags'])}")
            mine, base = {**merged(base, mine, theirs), "changeset": mapper.changeset}, theirs
            print(f"  merged and sent again: {shown(mine['tags'])}, at lat7 {mine['lat7']}, lon7 {mine['lon7']}")


def shown(tags: dict[str, str]) -> str:
    return ", ".join(f"{key}={value}" for key, value in sorted(tags.items()))


def draw_park(mapper: Mapper) -> dict[Key, int]:
    elements = park()
    rows = mapper.upload("create", elements)
    for element, row in zip(elements, rows, strict=True):
        if element["tags"]:
            print(f"  new {row['type']} {row['new_id']}: {shown(element['tags'])}")
    print(f"  and {sum(not element['tags'] for element in elements)} more without tags")
    return {(row["type"], row["old_id"]): row["new_id"] for row in rows}


def meet(mapper: Mapper, other: Mapper, gate: int) -> None:
    """Both change the gate's first version; the other one is faster."""
    base = mapper.read("node", gate)
    theirs = {**base, "changeset": other.changeset, "tags": {**base["tags"], "access": "yes"}}
    other.upload("modify", [theirs])
    moved = {**base, "changeset": mapper.changeset, **place(0, 95), "tags": {**base["tags"], "bicycle": "no"}}
    print("I move the gate five metres east, and tag it bicycle=no.")
    print(f"  saved as version {save(mapper, base, moved)}")


def main() -> int:
    parser = argparse.ArgumentParser(usage=(__doc__ or "").split("\n\n")[0].partition(": ")[2])
    for name in ("server", "token", "other-token"):
        parser.add_argument(f"--{name}", required=True)
    it = parser.parse_args()
    try:
        mapper = Mapper(it.server, it.token, "Pond Park, from a walk")
        print(f"Changeset {mapper.changeset} is open. I map a park:")
        ids = draw_park(mapper)
        other = Mapper(it.server, it.other_token, "gates that are open")
        meet(mapper, other, ids["node", GATE])
        other.close()
        row = mapper.close()
    except (Refused, Lost) as why:
        print(f"editor.py: {why}", file=sys.stderr)
        return 1
    print(f"Changeset {row['id']} of {row['user']} is closed, with {row['changes_count']} changes.")
    print(f"See it: curl '{it.server}/api/0.6/relation/{ids['relation', -1]}/full'")
    return 0


if __name__ == "__main__":
    sys.exit(main())
