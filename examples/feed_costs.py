#!/usr/bin/env python3
"""What a consumer of the feed costs: examples/feed_costs.py [--program PROGRAM] [--entries 50000] [--seconds 10]

Fills a server's journal with so many entries, and then has four links upload ten new nodes and a way over them, again and again: first
alone, then beside a consumer that follows the feed from its first piece on one link, then beside one that asks for one piece in the
middle of the journal over and over, and then alone once more. Prints uploads a second, and how long a piece takes. Needs wrk.
"""

from __future__ import annotations

import argparse
import tempfile
import threading
import time

from load import CHANGESETS, TOKEN, uploads_in_quarter
from serving import OSM, Link, Server

USERS = f"1 {TOKEN} user alice\n2 bobtoken moderator bob\n"
LINKS = 4


class Consumer(threading.Thread):
    """Asks for pieces on one link until it is ended, from the first one on, or for one again and again, and keeps the times."""

    def __init__(self, port: int, number: int, step: int) -> None:
        super().__init__(daemon=True)
        self.link, self.number, self.step, self.goes_on = Link(port, "bobtoken"), number, step, True
        self.times: list[float] = []
        self.start()

    def run(self) -> None:
        while self.goes_on:
            before = time.perf_counter()
            reply = self.link.ask("GET", f"replication/{self.number}")
            self.times.append(time.perf_counter() - before)
            self.number += self.step if reply.status == 200 else 0

    def end(self) -> str:
        self.goes_on = False
        self.join()
        times = sorted(self.times)
        middle, last = times[len(times) // 2] * 1e6, times[len(times) * 99 // 100] * 1e6
        return f"{len(times)} pieces, half of them within {middle:.0f} us, 99 of 100 within {last:.0f} us"


def fill(port: int, entries: int) -> None:
    """So many entries: changesets, and uploads of a node each to the first six of them."""
    link = Link(port, TOKEN)
    for _ in range(CHANGESETS + 6):
        link.ask("PUT", "changeset/create")
    for place in range(entries - CHANGESETS - 6):
        node = {"type": "node", "id": -1, "lat7": 481000000 + place, "lon7": 115000000 + place}
        reply = link.ask("POST", f"changeset/{CHANGESETS + 1 + place // 9999}/upload", {"osmChange": [{"create": [node]}]})
        if reply.status != 200:
            raise SystemExit(f"{reply.status} {reply.body.decode()}")
    link.close()


def main() -> None:
    parser = argparse.ArgumentParser(description=(__doc__ or "").split("\n")[0])
    parser.add_argument("--program", default=OSM)
    parser.add_argument("--entries", type=int, default=50_000)
    parser.add_argument("--seconds", type=int, default=10)
    words = parser.parse_args()
    with tempfile.TemporaryDirectory() as folder, Server(words.program, LINKS + 1, USERS) as server:
        fill(server.port, words.entries)
        plays = (("alone", None), ("beside a follower from the first piece", (1, 1)), ("beside one piece", (words.entries // 2, 0)), ("alone", None))
        for place, (name, consumer) in enumerate(plays):
            follower = Consumer(server.port, *consumer) if consumer else None
            run = uploads_in_quarter(server.port, folder, place, LINKS, words.seconds)
            print(f"{name}: {run.rate:,.0f} uploads a second, {run.refused} refused" + (f"; {follower.end()}" if follower else ""), flush=True)


if __name__ == "__main__":
    main()
