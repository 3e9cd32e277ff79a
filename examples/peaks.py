#!/usr/bin/env python3
"""Peak memory: examples/peaks.py [--program ./osm] [--links 64] [--only NAME]

Sends each body of bodies.py, most of them as long as a body may be, as an upload on the one link of a new
`PROGRAM serve`, and tells the status, the time, the most memory that the process held, and what it holds
afterwards. Then a body on each of so many links at once, with as many workers: first all but its last byte, so
that each link holds a whole body, then the last bytes. Without links this part is left out.
"""

from __future__ import annotations

import argparse
import socket
import sys
import time
from concurrent.futures import ThreadPoolExecutor

import bodies
import serving
from serving import Link, Replies, Server, connect, request

USERS = "1 alicetoken user alice\n"
TOKEN = "alicetoken"
NODE = {"type": "node", "id": -1, "lat7": 1, "lon7": 1}
WAY = {"type": "way", "id": -1, "nodes": [-1]}


def prepared(server: Server) -> None:
    """Two changesets; in the first a node, and a way that was deleted again."""
    link = Link(server.port, TOKEN)
    for _ in range(2):
        link.ask("PUT", "changeset/create")
    link.ask("POST", "changeset/1/upload", {"osmChange": [{"create": [NODE, WAY]}]})
    link.ask("DELETE", "way/1", {"changeset": 1, "version": 1})
    link.close()


def one_link(program: str, name: str, body: bytes) -> float:
    """The peak in megabytes."""
    with Server(program, 1, USERS) as server:
        prepared(server)
        before, began = server.megabytes(), time.monotonic()
        with connect(server.port, 600) as stream:
            stream.sendall(request("POST", "changeset/2/upload", TOKEN, body, True))
            reply = Replies(stream).next()
        took, peak = time.monotonic() - began, server.megabytes("VmHWM")
        what = f"{reply.status}, {len(reply.body):,} bytes" if reply.status == 200 else f"{reply.status} {reply.body.decode()}"
        print(f"{name}: {len(body):,} bytes, {took:.2f} s, at most {peak:.0f} MB, then {server.megabytes():.0f}, before {before:.0f}; {what}", flush=True)
    return peak


def many_links(program: str, links: int, body: bytes) -> None:
    data = request("POST", "changeset/2/upload", TOKEN, body, True)
    with Server(program, links, USERS) as server, ThreadPoolExecutor(links) as pool:
        prepared(server)
        streams = [connect(server.port, 600) for _ in range(links)]
        list(pool.map(socket.socket.sendall, streams, [data[:-1]] * links))
        time.sleep(1)
        held = server.megabytes()
        list(pool.map(socket.socket.sendall, streams, [data[-1:]] * links))
        statuses = sorted(set(pool.map(lambda stream: Replies(stream).next().status, streams)))
        for stream in streams:
            stream.close()
        peak = server.megabytes("VmHWM")
        print(f"{links} links, each with {len(body):,} bytes: {held:.0f} MB held, at most {peak:.0f} MB once all had come; statuses {statuses}")


def main() -> int:
    parser = argparse.ArgumentParser(usage=(__doc__ or "").split("\n\n")[0].partition(": ")[2])
    parser.add_argument("--program", default=serving.OSM)
    parser.add_argument("--links", type=int, default=64)
    parser.add_argument("--only", default="")
    it = parser.parse_args()
    chosen = it.only.split(",") if it.only else bodies.BODIES
    peaks = {name: one_link(it.program, name, bodies.BODIES[name]().encode()) for name in chosen}
    worst = max(peaks, key=lambda name: peaks[name])
    print(f"the most is {peaks[worst]:.0f} MB, of {worst}")
    if it.links:
        many_links(it.program, it.links, bodies.BODIES["white_space"]().encode())
    return 0


if __name__ == "__main__":
    sys.exit(main())
