#!/usr/bin/env python3
"""What large reads and uploads cost each other: examples/beside_reads.py [--program PROGRAM] [--nodes 10000] [--seconds 5]

Fills a square with so many nodes. Two links read the map of it over and over, and two upload ten new nodes and a way over them: each
alone, and then both at once. Prints uploads a second, maps a second and how long a map takes. Needs wrk.
"""

from __future__ import annotations

import argparse
import tempfile
import threading
import time

from load import CHANGESETS, TOKEN, uploads_in_quarter
from serving import OSM, Link, Server

USERS = f"1 {TOKEN} user alice\n2 bobtoken moderator bob\n"
LINKS = 2
# A square in the south, away from what is uploaded.
BOX = "-60.0,-40.0,-59.9,-39.9"


class Reader(threading.Thread):
    """Reads the map of the square on one link until it is ended, and keeps the times."""

    def __init__(self, port: int) -> None:
        super().__init__(daemon=True)
        self.link, self.goes_on = Link(port, TOKEN), True
        self.times: list[float] = []
        self.start()

    def run(self) -> None:
        while self.goes_on:
            before = time.perf_counter()
            reply = self.link.ask("GET", f"map?bbox={BOX}")
            self.times.append(time.perf_counter() - before)
            if reply.status != 200:
                raise SystemExit(f"{reply.status} {reply.body[:200]!r}")

    def end(self) -> None:
        self.goes_on = False
        self.join()
        self.link.close()


def told_of(readers: list[Reader], seconds: float) -> str:
    times = sorted(time for reader in readers for time in reader.times)
    middle, last = times[len(times) // 2] * 1e3, times[len(times) * 99 // 100] * 1e3
    return f"{len(times) / seconds:,.0f} maps a second, half of them within {middle:.1f} ms, 99 of 100 within {last:.1f} ms"


def fill(port: int, nodes: int) -> None:
    """So many nodes in the square, and the changesets of the uploads."""
    link = Link(port, TOKEN)
    for _ in range(CHANGESETS + 1):
        link.ask("PUT", "changeset/create")
    create = [
        {"type": "node", "id": -1 - place, "lat7": -400000000 + 7 * place, "lon7": -600000000 + 11 * place} for place in range(nodes)
    ]
    reply = link.ask("POST", f"changeset/{CHANGESETS + 1}/upload", {"osmChange": [{"create": create}]})
    if reply.status != 200:
        raise SystemExit(f"{reply.status} {reply.body[:200]!r}")
    link.close()


def main() -> None:
    parser = argparse.ArgumentParser(description=(__doc__ or "").split("\n")[0])
    parser.add_argument("--program", default=OSM)
    parser.add_argument("--nodes", type=int, default=10_000)
    parser.add_argument("--seconds", type=int, default=5)
    words = parser.parse_args()
    with tempfile.TemporaryDirectory() as folder, Server(words.program, 2 * LINKS, USERS) as server:
        fill(server.port, words.nodes)
        plays = (("uploads alone", 0, True), ("maps alone", LINKS, False), ("both", LINKS, True), ("uploads alone", 0, True))
        for place, (name, links, uploads) in enumerate(plays):
            readers = [Reader(server.port) for _ in range(links)]
            before, parts = time.perf_counter(), []
            if uploads:
                run = uploads_in_quarter(server.port, folder, place, LINKS, words.seconds)
                parts.append(f"{run.rate:,.0f} uploads a second, {run.refused} refused")
            else:
                time.sleep(words.seconds)
            seconds = time.perf_counter() - before
            for reader in readers:
                reader.end()
            if readers:
                parts.append(told_of(readers, seconds))
            print(f"{name}: {'; '.join(parts)}", flush=True)


if __name__ == "__main__":
    main()
