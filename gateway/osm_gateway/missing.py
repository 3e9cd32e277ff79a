"""All nodes that a way wants for. The server names the first one that isn't there, and OSM's server lists all of them."""

from __future__ import annotations

import json
from collections.abc import Iterator

from .call import Call
from .made_again import Acts
from .refusals import Refused, ways_nodes

MANY = 500
"""Ids in one fetch of many, which fit into the longest address that the server reads."""
ASKED = 100
"""Requests that are made to tell all."""


def nodes_of(acts: Acts, wanted: int, found: set[int]) -> Iterator[str]:
    """In turns: puts there the nodes with ids of the server's that the operation with that number lists, from 1 on."""
    for place, (_, row) in enumerate(acts, 1):
        if place == wanted:
            found.update(it for it in row.get("nodes", ()) if it > 0)
            return
        yield ""


async def invisible(call: Call, ids: list[int]) -> set[int]:
    """Those that aren't there or are deleted, as far as so many requests tell: a fetch of many is refused at the first that isn't there."""
    left, gone = ids, set[int]()
    for _ in range(ASKED):
        if not left:
            break
        asked = left[:MANY]
        try:
            reply = await call.ask("GET", "nodes", {"nodes": ",".join(map(str, asked))})
        except Refused as why:
            if why.said.get("error") != "no_element" or why.said.get("id") not in asked:
                raise
            gone.add(why.said["id"])
            left = [it for it in left if it not in gone]
            continue
        gone |= {row["id"] for row in json.loads(reply.whole())["elements"] if not row["visible"]}
        left = left[MANY:]
    return gone


async def with_all(call: Call, why: Refused, acts: Acts) -> Refused:
    """The refusal with all of them; as it stands where it is another one, or where the server can't be asked.

    What the server named stays in: it may be there now, or be deleted by the same upload.
    """
    if why.said.get("error") != "missing" or why.said.get("type") != "node":
        return why
    nodes: set[int] = set()
    await call.work(nodes_of(acts, why.said.get("op", 0), nodes))
    if why.said["id"] not in nodes:
        return why
    try:
        missing = {why.said["id"], *await invisible(call, sorted(nodes))}
    except (Refused, ValueError, LookupError):
        return why
    return Refused(why.status, ways_nodes(why.text, sorted(missing)), why.said)
