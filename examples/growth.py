#!/usr/bin/env python3
"""Whether work grows faster than what is asked: examples/growth.py [--program PROGRAM] [--step 5000] [--rounds 2] [WORD..]

On one link, sends the same kind of upload of 5,000 changes six times over to one element or one place, each behind all that went before,
and prints how many milliseconds each took: a node whose versions lie in two cells by turns, one that moves on at last, nodes of one place
that stay and that leave it, a node that enters a new cell each time, ways over one node, members of one relation. WORDs pick those whose
names have them. Each is tried on so many rounds of elements, and its best times count. Status 1 where a sixth upload takes more than 1.3
times the first one, and 20 ms.
"""

from __future__ import annotations

import argparse
import json
import os
import sys
import time
from collections.abc import Callable, Iterator
from typing import Any, NamedTuple

from serving import OSM, Link, Server

USERS = "1 alicetoken user alice\n@large-from 0\n"
STEPS = 6
CELL = 100_000
"""The side of a cell, in units of 1e-7 degrees."""
MOST, FLOOR = 1.3, 20.0
Element = dict[str, Any]


class Step(NamedTuple):
    """What an upload asks for."""

    block: str
    elements: list[Element]


class Map:
    """What a case knows of the map: the ids that come next, and what has been done in the open changeset."""

    def __init__(self, link: Link, size: int) -> None:
        self.link, self.size, self.changeset, self.left = link, size, "", 0
        self.next = {"node": 1, "way": 1, "relation": 1}

    def upload(self, step: Step) -> float:
        """Its milliseconds, from its first byte to the reply's last."""
        if self.left < len(step.elements):
            self.changeset, self.left = self.link.ask("PUT", "changeset/create").body.decode(), 10_000
        self.left -= len(step.elements)
        body = json.dumps({"osmChange": [{step.block: step.elements}]}, separators=(",", ":")).encode()
        before = time.perf_counter()
        reply = self.link.ask("POST", f"changeset/{self.changeset}/upload", body)
        passed = (time.perf_counter() - before) * 1e3
        if reply.status != 200:
            raise SystemExit(f"{reply.status} {reply.body.decode()[:200]}")
        if step.block == "create":
            for element in step.elements:
                self.next[element["type"]] += 1
        return passed

    def nodes(self, lat7: int, lon7: int, count: int) -> list[int]:
        """So many new nodes in one place, which aren't timed."""
        first = self.next["node"]
        self.upload(Step("create", [node(-1 - place, lat7, lon7) for place in range(count)]))
        return list(range(first, first + count))


def node(number: int, lat7: int, lon7: int, version: int = 0) -> Element:
    return {"type": "node", "id": number, "lat7": lat7, "lon7": lon7} | ({"version": version} if version else {})


def versions(number: int, step: int, size: int, place: Callable[[int], tuple[int, int]]) -> Step:
    """The next versions of a node, each where its number says."""
    made = range(step * size + 1, (step + 1) * size + 1)
    return Step("modify", [node(number, *place(version), version) for version in made])


def by_turns(known: Map, origin: int) -> Iterator[Step]:
    (number,) = known.nodes(origin, 0, 1)
    for step in range(STEPS):
        yield versions(number, step, known.size, lambda version: (origin, version % 2 * CELL))


def at_last(known: Map, origin: int) -> Iterator[Step]:
    (number,) = known.nodes(origin, 0, 1)
    for step in range(STEPS):
        yield versions(number, step, known.size, lambda version: (origin, version // ((STEPS - 1) * known.size) * CELL))


def new_cells(known: Map, origin: int) -> Iterator[Step]:
    """Along rows of a hundred cells."""
    (number,) = known.nodes(origin, 0, 1)
    for step in range(STEPS):
        yield versions(number, step, known.size, lambda version: (origin + version // 100 * CELL, version % 100 * CELL))


def staying(known: Map, origin: int) -> Iterator[Step]:
    """More and more nodes in one place, of which the first are modified."""
    first: list[int] = []
    for step in range(STEPS):
        more = known.nodes(origin, 0, known.size)
        first = first or more
        yield Step("modify", [node(number, origin, 1, step + 1) for number in first])


def leaving(known: Map, origin: int) -> Iterator[Step]:
    for _ in range(STEPS):
        more = known.nodes(origin, 0, known.size)
        yield Step("modify", [node(number, origin + CELL, 0, 1) for number in more])


def ways(known: Map, origin: int) -> Iterator[Step]:
    two = known.nodes(origin, 0, 2)
    for _ in range(STEPS):
        yield Step("create", [{"type": "way", "id": -1 - place, "nodes": two} for place in range(known.size)])


def members(known: Map, origin: int) -> Iterator[Step]:
    """A relation lists other nodes, as many each time."""

    def listed() -> list[Element]:
        return [{"type": "node", "ref": node, "role": ""} for node in known.nodes(origin, 0, known.size)]

    number = known.next["relation"]
    known.upload(Step("create", [{"type": "relation", "id": -1, "members": listed()}]))
    for step in range(STEPS):
        yield Step("modify", [{"type": "relation", "id": number, "version": step + 1, "members": listed()}])


def one_relation(known: Map, origin: int) -> Iterator[Step]:
    """Versions of a relation that list two nodes by turns."""
    two, number = known.nodes(origin, 0, 2), known.next["relation"]
    known.upload(Step("create", [{"type": "relation", "id": -1, "members": []}]))
    for step in range(STEPS):
        made = range(step * known.size + 1, (step + 1) * known.size + 1)
        listed = [[{"type": "node", "ref": node, "role": ""}] for node in two]
        yield Step("modify", [{"type": "relation", "id": number, "version": it, "members": listed[it % 2]} for it in made])


CASES: dict[str, Callable[[Map, int], Iterator[Step]]] = {
    "a node in two cells by turns": by_turns,
    "a node that moves on at last": at_last,
    "a node that enters a new cell each time": new_cells,
    "nodes of one place that stay": staying,
    "nodes of one place that leave": leaving,
    "ways over one node": ways,
    "members of one relation": members,
    "versions of one relation": one_relation,
}


def times(known: Map, case: Callable[[Map, int], Iterator[Step]], origin: int) -> list[float]:
    return [known.upload(step) for step in case(known, origin)]


def main() -> None:
    parser = argparse.ArgumentParser(description=(__doc__ or "").split("\n")[0])
    parser.add_argument("--program", default=OSM)
    parser.add_argument("--step", type=int, default=5_000)
    parser.add_argument("--rounds", type=int, default=2)
    parser.add_argument("words", nargs="*")
    words = parser.parse_args()
    grown = []
    with Server(os.path.abspath(words.program), 1, USERS) as server:
        known = Map(Link(server.port, "alicetoken"), words.step)
        picked = [name for name in CASES if not words.words or any(word in name for word in words.words)]
        for place, name in enumerate(picked):
            rounds = [times(known, CASES[name], 10 * CELL * (place * words.rounds + it + 1)) for it in range(words.rounds)]
            best = [min(taken) for taken in zip(*rounds)]
            print(f"{name:42}" + "".join(f"{taken:10,.1f}" for taken in best) + " ms", flush=True)
            if best[-1] > MOST * best[0] + FLOOR:
                grown.append(name)
        known.link.close()
    if grown:
        sys.exit(f"the sixth takes more than {MOST} times the first: {', '.join(grown)}")


if __name__ == "__main__":
    main()
