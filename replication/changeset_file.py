"""Changesets without their changes, as planet.openstreetmap.org has them: OSM's XML, for OSMCha, ChangesetMD and others."""

from __future__ import annotations

from collections.abc import Iterable, Iterator
from typing import Any

from change_file import attribute, tag_lines
from from_gateway import degrees_of

Changeset = dict[str, Any]
Box = tuple[int, int, int, int]  # west, south, east, north, in units of 1e-7 degrees
EDGES = {"min_lat": "minlat7", "min_lon": "minlon7", "max_lat": "maxlat7", "max_lon": "maxlon7"}


def lines(changeset: Changeset) -> Iterator[str]:
    """A changeset with its tags. Discussions aren't the server's, so none is counted."""
    head = "".join(attribute(name, changeset[name]) for name in ("id", "created_at", "closed_at") if name in changeset)
    head += f' open="{"true" if changeset["open"] else "false"}"'
    head += "".join(attribute(name, changeset[name]) for name in ("user", "uid"))
    head += "".join(f' {name}="{degrees_of(changeset[edge])}"' for name, edge in EDGES.items() if edge in changeset)
    head += f' num_changes="{changeset["changes_count"]}" comments_count="0"'
    inner = "".join(tag_lines(changeset["tags"], "    "))
    yield f"  <changeset{head}>\n{inner}  </changeset>\n" if inner else f"  <changeset{head}/>\n"


def bounds_line(box: Box) -> str:
    west, south, east, north = map(degrees_of, box)
    return f'  <bounds minlat="{south}" minlon="{west}" maxlat="{north}" maxlon="{east}"/>\n'


def text_of(changesets: Iterable[Changeset], box: Box | None = None) -> Iterator[str]:
    """The whole text, changesets in their order."""
    yield '<?xml version="1.0" encoding="UTF-8"?>\n<osm version="0.6" generator="hegunsap">\n'
    if box is not None:
        yield bounds_line(box)
    for changeset in changesets:
        yield from lines(changeset)
    yield "</osm>\n"
