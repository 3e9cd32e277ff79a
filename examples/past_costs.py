#!/usr/bin/env python3
"""What a map of the past costs: examples/past_costs.py [--program PROGRAM] [--nodes 200000] [--reads 200]

Uploads so many nodes in a square with a way over each ten, and then reads boxes of about a thousand nodes: as they are, and as they were at
a moment behind the last upload. Then every node is moved into another square, and the boxes of the first one are read again, now empty,
and as they were before. Prints the memory that the server holds, and how long a read takes.
"""

from __future__ import annotations

import argparse
import os
import time
from collections.abc import Iterator
from typing import Any

from serving import OSM, Link, Server, boxes, timed

USERS = "1 alicetoken user alice\n@large-from 0\n"
EDGE = 20_000_000
"""Two degrees, in units of 1e-7 degrees."""
UPLOAD = 11 * 1_800
"""So many elements an upload, whole ways with their nodes, and so many a changeset."""
CHANGESET = 2 * UPLOAD


def place(number: int, nodes: int) -> tuple[int, int]:
    """Where a node lies: in rows, with its neighbours beside it."""
    side = int(nodes**0.5) + 1
    return number // side * (EDGE // side), number % side * (EDGE // side)


def created(nodes: int) -> Iterator[dict[str, Any]]:
    for first in range(0, nodes, 10):
        for number in range(first, first + 10):
            lat7, lon7 = place(number, nodes)
            yield {"type": "node", "id": -1 - number, "lat7": lat7, "lon7": lon7}
        yield {"type": "way", "id": -1 - first, "nodes": [-1 - number for number in range(first, first + 10)]}


def moved(nodes: int) -> Iterator[dict[str, Any]]:
    for number in range(nodes):
        lat7, lon7 = place(number, nodes)
        yield {"type": "node", "id": 1 + number, "version": 1, "lat7": lat7 + 2 * EDGE, "lon7": lon7}


def upload(link: Link, block: str, elements: Iterator[dict[str, Any]]) -> None:
    """Uploads all elements, in changesets and uploads of a bounded size."""
    left = list(elements)
    for first in range(0, len(left), CHANGESET):
        changeset = link.ask("PUT", "changeset/create").body.decode()
        many = left[first : first + CHANGESET]
        for part in range(0, len(many), UPLOAD):
            reply = link.ask("POST", f"changeset/{changeset}/upload", {"osmChange": [{block: many[part : part + UPLOAD]}]})
            if reply.status != 200:
                raise SystemExit(f"{reply.status} {reply.body.decode()[:200]}")


def main() -> None:
    parser = argparse.ArgumentParser(description=(__doc__ or "").split("\n")[0])
    parser.add_argument("--program", default=OSM)
    parser.add_argument("--nodes", type=int, default=200_000)
    parser.add_argument("--reads", type=int, default=200)
    words = parser.parse_args()
    nodes = words.nodes // 10 * 10
    side = round(EDGE * (1000 / nodes) ** 0.5)
    with Server(os.path.abspath(words.program), 2, USERS) as server:
        link = Link(server.port, "alicetoken")
        upload(link, "create", created(nodes))
        made = f"&at={int(time.time())}"
        print(f"{nodes:,} nodes and {nodes // 10:,} ways: the server holds {server.megabytes():,.0f} MiB")
        for name, at in (("as they are", ""), ("as they were at the last upload", made)):
            print(f"boxes {name}: {timed(link, (f'map?bbox={box}{at}' for box in boxes(EDGE, side, words.reads)), 'elements')}")
        time.sleep(1.1)
        upload(link, "modify", moved(nodes))
        print(f"each node moved once: the server holds {server.megabytes():,.0f} MiB")
        for name, at in (("as they are", ""), ("as they were before", made)):
            print(f"boxes {name}: {timed(link, (f'map?bbox={box}{at}' for box in boxes(EDGE, side, words.reads)), 'elements')}")
        link.close()


if __name__ == "__main__":
    main()
