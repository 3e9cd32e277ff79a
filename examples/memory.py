#!/usr/bin/env python3
"""Bytes a node: examples/memory.py [--program PROGRAM] [--nodes 100000] [--most BOOK,SERVE,LARGE]

Fills a map with so many nodes and a way over each ten, ten nodes and their way an upload, and tells the most memory that this took for
each node: on a book, which is the peak of `PROGRAM measure` less that of a single upload, and by `PROGRAM serve` with four links, which
is its peak less that before the first upload. Then the same of a server that takes the nodes alone, 1,000 an upload and a changeset for
each, less its peak behind the first upload of each link. With --most the status is 1 where one of them is more than a tenth above the
figure there. PROGRAM is crates/osm/out/osm where none is named.
"""

from __future__ import annotations

import argparse
import fcntl
import os
import random
import subprocess
import sys
import time
from collections.abc import Callable, Iterator
from concurrent.futures import ThreadPoolExecutor
from typing import Any

from serving import Link, Server

HERE = os.path.dirname(os.path.abspath(__file__))
USERS = "1 alicetoken user alice\n"
LINKS = 4
SESSIONS = 64
A_WAY = 10
"""Nodes an upload."""
MANY = SESSIONS * 909 * A_WAY
"""The most that `measure` makes of them."""
UPLOADS_A_CHANGESET = 900
LARGE = 1_000
"""Nodes of a large upload."""
MARGIN = 1.1


def status_of(pid: int, name: str) -> str:
    with open(f"/proc/{pid}/status", encoding="ascii") as file:
        return next((line.split()[1] for line in file if line.startswith(f"{name}:")), "")


def measured(program: str, uploads: int) -> tuple[int, int]:
    """The peak of `measure` in bytes, and its nodes.

    Its lines go to a full pipe, so it waits with them until its peak is read. What the kernel tells of a process that has ended is no
    less than what this one had when it started it.
    """
    words = ("measure", "--seed", "1", "--sessions", str(SESSIONS), "--uploads", str(uploads))
    reader, writer = os.pipe()
    os.write(writer, b"\n" * fcntl.fcntl(writer, fcntl.F_SETPIPE_SZ, 1))
    with subprocess.Popen((program, *words), stdin=subprocess.DEVNULL, stdout=writer) as process:
        os.close(writer)
        while status_of(process.pid, "State") in ("R", "D"):
            time.sleep(0.01)
        peak = status_of(process.pid, "VmHWM")
        with os.fdopen(reader) as lines:
            told = dict(line.split(" ", 1) for line in lines.read().split("\n") if line)
    if process.returncode or not peak or told["refused"] != "0":
        raise SystemExit(f"{program} {' '.join(words)} ended with status {process.returncode}: {told}")
    return int(peak) * 1024, int(told["nodes"])


def on_a_book(program: str, nodes: int) -> float:
    least, few = measured(program, 1)
    most, many = measured(program, nodes // A_WAY)
    return (most - least) / (many - few)


def nodes_at(numbers: random.Random, count: int) -> list[dict[str, Any]]:
    """New nodes where a drawn number puts each, as in the load of `measure`."""
    places = [(480_000_000 + numbers.randrange(1_000_000), 110_000_000 + numbers.randrange(1_000_000)) for _ in range(count)]
    return [{"type": "node", "id": -1 - place, "lat7": lat7, "lon7": lon7} for place, (lat7, lon7) in enumerate(places)]


def with_a_way(numbers: random.Random) -> list[dict[str, Any]]:
    nodes = nodes_at(numbers, A_WAY)
    return [*nodes, {"type": "way", "id": -1, "nodes": [it["id"] for it in nodes]}]


def replies(port: int, seed: int, uploads: int) -> Iterator[int]:
    """The statuses of so many uploads of ten nodes and a way on one link."""
    link, numbers = Link(port, "alicetoken"), random.Random(seed)
    for turn in range(uploads):
        if turn % UPLOADS_A_CHANGESET == 0:
            changeset = link.ask("PUT", "changeset/create").body.decode()
        yield link.ask("POST", f"changeset/{changeset}/upload", {"osmChange": [{"create": with_a_way(numbers)}]}).status
    link.close()


def large_replies(port: int, seed: int, uploads: int) -> Iterator[int]:
    """The same of large uploads of nodes, a changeset for each."""
    link, numbers = Link(port, "alicetoken"), random.Random(seed)
    for _ in range(uploads):
        changeset = link.ask("PUT", "changeset/create").body.decode()
        yield link.ask("POST", f"changeset/{changeset}/upload", {"osmChange": [{"create": nodes_at(numbers, LARGE)}]}).status
        link.ask("PUT", f"changeset/{changeset}/close")
    link.close()


def on_links(server: Server, uploading: Callable[[int, int, int], Iterator[int]], seed: int, uploads: int) -> None:
    """So many uploads on each of four links."""
    with ThreadPoolExecutor(LINKS) as pool:
        statuses = {it for some in pool.map(lambda link: set(uploading(server.port, seed + link, uploads)), range(LINKS)) for it in some}
    if statuses - {200}:
        raise SystemExit(f"uploads were answered with {sorted(statuses)}")


def by_serve(program: str, nodes: int) -> float:
    share = nodes // A_WAY // LINKS
    with Server(program, LINKS, USERS) as server:
        before = server.megabytes("VmHWM")
        on_links(server, replies, 0, share)
        after = server.megabytes("VmHWM")
    return (after - before) * 1024 * 1024 / (A_WAY * LINKS * share)


def by_large_uploads(program: str, nodes: int) -> float:
    share = nodes // LARGE // LINKS
    with Server(program, LINKS, USERS) as server:
        on_links(server, large_replies, 0, 1)
        before = server.megabytes("VmHWM")
        on_links(server, large_replies, LINKS, share)
        after = server.megabytes("VmHWM")
    return (after - before) * 1024 * 1024 / (LARGE * LINKS * share)


def figures(text: str) -> tuple[float, ...]:
    book, serve, large = map(float, text.split(","))
    return book, serve, large


def main() -> int:
    parser = argparse.ArgumentParser(description=(__doc__ or "").split("\n")[0])
    parser.add_argument("--program", default=os.path.join(HERE, "..", "crates", "osm", "out", "osm"))
    parser.add_argument("--nodes", type=int, default=100_000)
    parser.add_argument("--most", type=figures, default=(float("inf"),) * 3)
    words = parser.parse_args()
    if not os.access(words.program, os.X_OK):
        parser.error(f"there is no program {words.program}: ./osm build makes it")
    if not LINKS * LARGE <= words.nodes <= MANY:
        parser.error(f"--nodes takes {LINKS * LARGE} to {MANY}")
    above = False
    ways_to_fill = (("on a book", on_a_book), ("by serve", by_serve), ("by serve, 1,000 an upload", by_large_uploads))
    for (name, fill), most in zip(ways_to_fill, words.most):
        came = fill(words.program, words.nodes)
        is_above = came > MARGIN * most
        above = above or is_above
        print(f"{words.nodes:,} nodes {name}: {came:,.0f} bytes a node" + (f", more than a tenth above {most:,.0f}" if is_above else ""), flush=True)
    return 1 if above else 0


if __name__ == "__main__":
    sys.exit(main())
