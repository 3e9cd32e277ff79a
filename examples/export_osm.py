#!/usr/bin/python3
"""Writes a map as a file: examples/export_osm.py --server URL [--box WEST,SOUTH,EAST,NORTH] [--replication URL] FILE

FILE is a .osm, .osm.pbf or the like, and new; needs Debian's python3-pyosmium. Without a box it is the whole map, read by
id to the last one; then nobody should be editing. With a box, in degrees, it is what the server's map call tells of it,
in parts where the box is too large for one: relations come without those of their members that are elsewhere. With
--replication, the address of the folder that replication/run writes, FILE says from which number on its changes are
wanted (a .osm.pbf has room for that): then somebody may be editing, since what is newer comes with them once more.
The file's head has the box, or that of all nodes, since some programs read no file without one.
"""

from __future__ import annotations

import argparse
import os
import sys
import urllib.request
from collections.abc import Iterator

sys.path.append(os.path.join(os.path.dirname(os.path.dirname(os.path.abspath(__file__))), "gateway"))

import osm_file
from map_client import KINDS, Client, Element, Key, Lost, Refused, key
from osm_gateway.degrees import degrees_of, units_of

MANY = 500  # ids in a request
Box = osm_file.Box
degrees = degrees_of


def read_box(client: Client, box: Box) -> dict[Key, Element]:
    """The map of a box, in quarters where the server says that it is too large."""
    west, south, east, north = box
    try:
        found = client.ask("GET", "map?bbox=" + ",".join(map(degrees, box)))["elements"]
        return {key(it): it for it in found}
    except Refused as why:
        if why.error not in ("map_area", "map_nodes") or (west == east and south == north):
            raise
    middle, centre = (west + east) // 2, (south + north) // 2
    parts: dict[Key, Element] = {}
    for part in {
        (west, south, middle, centre),
        (min(middle + 1, east), south, east, centre),
        (west, min(centre + 1, north), middle, north),
        (min(middle + 1, east), min(centre + 1, north), east, north),
    }:
        parts.update(read_box(client, part))
    return parts


def read_all(client: Client) -> dict[Key, Element]:
    """Each visible element of the map."""
    return {key(it): it for kind in KINDS for it in read_kind(client, kind) if it["visible"]}


def read_kind(client: Client, kind: str) -> Iterator[Element]:
    """The elements of a kind, deleted ones too. Ids go from 1 up without gaps, so the first one that never was ends them."""
    first = 1
    while True:
        part = read_many(client, kind, first, first + MANY)
        yield from part
        if len(part) < MANY:
            return
        first += MANY


def read_many(client: Client, kind: str, first: int, end: int) -> list[Element]:
    """Those with an id from `first` to before `end`, up to the first that never was."""
    if first == end:
        return []
    try:
        elements: list[Element] = client.ask("GET", f"{kind}s?{kind}s=" + ",".join(map(str, range(first, end))))["elements"]
        return elements
    except Refused as why:
        if why.error != "no_element":
            raise
        return read_many(client, kind, first, int(why.why["id"]))


def replication_headers(base_url: str) -> dict[str, str]:
    """What the newest state of a folder of replication says, as OpenStreetMap's programs look for it in a file's head."""
    with urllib.request.urlopen(base_url.rstrip("/") + "/state.txt", timeout=60) as reply:
        lines = reply.read().decode().splitlines()
    fields = dict(line.split("=", 1) for line in lines if "=" in line and not line.startswith("#"))
    return {
        "osmosis_replication_base_url": base_url,
        "osmosis_replication_sequence_number": fields["sequenceNumber"],
        "osmosis_replication_timestamp": fields["timestamp"].replace("\\", ""),
    }


def box_of(text: str) -> Box:
    """`WEST,SOUTH,EAST,NORTH` in degrees."""
    west, south, east, north = map(units_of, text.split(","))
    return west, south, east, north


def main() -> int:
    parser = argparse.ArgumentParser(usage=(__doc__ or "").split("\n\n")[0].partition(": ")[2])
    parser.add_argument("--server", required=True)
    parser.add_argument("--box", type=box_of)
    parser.add_argument("--replication")
    parser.add_argument("file")
    it = parser.parse_args()
    if os.path.exists(it.file):
        sys.exit(f"export_osm.py: {it.file} is there already")
    client = Client(it.server)
    try:
        # Before the map is read, so that the file has all that the state stands for.
        headers = replication_headers(it.replication) if it.replication else {}
        elements = read_box(client, it.box) if it.box else read_all(client)
        osm_file.write(it.file, elements.values(), headers, it.box or osm_file.box_of_nodes(elements.values()))
    except (Refused, Lost, RuntimeError, OSError, KeyError) as why:
        print(f"export_osm.py: {why}", file=sys.stderr)
        return 1
    counts = ", ".join(f"{sum(name[0] == kind for name in elements)} {kind}s" for kind in KINDS)
    print(f"{it.file}: {counts}")
    return 0


if __name__ == "__main__":
    sys.exit(main())
