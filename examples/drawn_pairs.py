#!/usr/bin/env python3
"""Plans and what others commit before them: examples/drawn_pairs.py [--pairs 20000] [--seed 1] [--program PROGRAM]

Draws pairs of a plan and of the journal that its commit finds, and has `desk_rows` play them: each upload is
planned by one session, another one commits up to two uploads to the same small map, and then the first one
commits its plan. The server's machine settles the plan, a program over plain lists judges the upload anew,
and both must answer and enter the same. Tells how many commits went which way.

PROGRAM is what the gate makes of crates/desk_rows (`rt run` in that folder leaves it in out/). Status 0 where
nothing differs, 1 where something does.
"""

from __future__ import annotations

import argparse
import copy
import json
import os
import random
import re
import subprocess
import sys
from typing import Any

from serving import tell_faults

HERE = os.path.dirname(os.path.abspath(__file__))
KINDS = ("node", "way", "relation")
PAIRS_OF_A_ROW = 100
KNOWN = 14
FACTS = re.compile(r"^  (\d+) fast, (\d+) slow by a count, (\d+) by users; (\d+) refused$")
Operation = dict[str, Any]


class Element:
    def __init__(self, refs: list[tuple[str, int]]) -> None:
        self.version, self.visible, self.refs = 1, True, refs


class Map:
    """The elements of a small map, as far as it takes to draw uploads that are mostly accepted."""

    def __init__(self) -> None:
        self.of: dict[str, dict[int, Element]] = {kind: {} for kind in KINDS}

    def is_used(self, kind: str, number: int) -> bool:
        return any(it.visible and (kind, number) in it.refs for some in self.of.values() for it in some.values())

    def sees(self, kind: str, number: int) -> bool:
        return number in self.of[kind] and self.of[kind][number].visible

    def apply(self, operations: list[Operation]) -> bool:
        """Does the operations of an upload, or tells that one of them is refused."""
        made: dict[tuple[str, int], int] = {}
        return all(self.operate(it, made) for it in operations)

    def operate(self, operation: Operation, made: dict[tuple[str, int], int]) -> bool:
        ((action, (it,)),) = [row for row in operation.items() if row[0] != "if-unused"]
        kind, number = it["type"], made.get((it["type"], it["id"]), it["id"])
        refs = [(k, made.get((k, ref), ref)) for k, ref in refs_of(it)]
        if action == "create":
            made[kind, number] = len(self.of[kind]) + 1
            self.of[kind][made[kind, number]] = Element(refs)
            return all(self.sees(*ref) for ref in refs if ref[1] > 0)
        old = self.of[kind].get(number)
        if old is None or not old.visible or old.version != it["version"] or not all(self.sees(*ref) for ref in refs):
            return False
        if action == "delete" and self.is_used(kind, number):
            return "if-unused" in operation
        old.version, old.visible, old.refs = old.version + 1, action != "delete", refs
        return True


def refs_of(element: dict[str, Any]) -> list[tuple[str, int]]:
    return [("node", ref) for ref in element.get("nodes", ())] + [(m["type"], m["ref"]) for m in element.get("members", ())]


class Drawer:
    """Draws uploads to a map as it is."""

    def __init__(self, draw: random.Random) -> None:
        self.draw, self.map = draw, Map()

    def known(self, kind: str, visible: bool = True) -> int | None:
        """One of the newest elements of that kind, so that uploads meet."""
        some = [number for number, it in self.map.of[kind].items() if it.visible or not visible]
        return self.draw.choice(some[-KNOWN:]) if some else None

    def content(self, kind: str) -> dict[str, Any]:
        if kind == "node":
            return {"lat7": self.draw.randrange(900), "lon7": self.draw.randrange(900)}
        if kind == "way":
            refs = [self.known("node") for _ in range(self.draw.randint(1, 3))]
            return {"nodes": [ref for ref in refs if ref] or [1]}
        parts = [(part, self.known(part)) for part in self.draw.choices(KINDS, k=self.draw.randint(0, 2))]
        return {"members": [{"type": part, "ref": ref, "role": ""} for part, ref in parts if ref]}

    def operation(self, place: int) -> Operation:
        kind = self.draw.choices(KINDS, (5, 3, 2))[0]
        number = self.known(kind, self.draw.random() < 0.95)
        if number is None or self.draw.random() < 0.4:
            return {"create": [{"type": kind, "id": -place, **self.content(kind)}]}
        version = self.map.of[kind][number].version
        if self.draw.random() < 0.6:
            return {"modify": [{"type": kind, "id": number, "version": version, **self.content(kind)}]}
        skips = {"if-unused": True} if self.draw.random() < 0.5 else {}
        return {**skips, "delete": [{"type": kind, "id": number, "version": version}]}

    def upload(self) -> list[Operation]:
        return [self.operation(place) for place in range(1, self.draw.randint(1, 3) + 1)]

    def commit(self, operations: list[Operation]) -> None:
        after = copy.deepcopy(self.map)
        if after.apply(operations):
            self.map = after


def planned(session: int, operations: list[Operation]) -> str:
    body = json.dumps({"osmChange": operations}, separators=(",", ":"))
    return f"plan {session} {('alice', 'bob')[session]} POST changeset/{session + 1}/upload {body}\n"


def row(seed: int, pairs: int) -> str:
    drawer = Drawer(random.Random(seed))
    text = f"\n== pairs {seed}\n"
    for session, user in enumerate(("alice", "bob")):
        text += f"plan {session} {user} PUT changeset/create\ncommit {session}\n"
    first: list[Operation] = [{"create": [{"type": "node", "id": -i, "lat7": i, "lon7": i}]} for i in range(1, 21)]
    first += [{"create": [{"type": "way", "id": -i, "nodes": [-i, -i - 1]}]} for i in range(1, 7)]
    first += [{"create": [{"type": "relation", "id": -i, "members": [{"type": "way", "ref": -i, "role": ""}]}]} for i in range(1, 4)]
    text += "publish\n" + planned(0, first) + "commit 0\npublish\n"
    drawer.commit(first)
    for _ in range(pairs):
        mine = drawer.upload()
        text += planned(0, mine)
        for _ in range(drawer.draw.choice((0, 1, 1, 1, 2))):
            theirs = drawer.upload()
            text += planned(1, theirs) + "commit 1\npublish\n"
            drawer.commit(theirs)
        text += "commit 0\npublish\n"
        drawer.commit(mine)
    return text + "tally\n"


def main() -> int:
    parser = argparse.ArgumentParser(usage=(__doc__ or "").split("\n\n")[0].partition(": ")[2])
    parser.add_argument("--pairs", type=int, default=20000)
    parser.add_argument("--seed", type=int, default=1)
    parser.add_argument("--program", default=os.path.join(HERE, "..", "crates", "desk_rows", "out", "desk_rows"))
    it = parser.parse_args()
    counts, rows = [0, 0, 0, 0], -(-it.pairs // PAIRS_OF_A_ROW)
    faults = []
    for number in range(rows):
        pairs = min(PAIRS_OF_A_ROW, it.pairs - number * PAIRS_OF_A_ROW)
        done = subprocess.run([it.program], input=row(it.seed * 1000 + number, pairs), capture_output=True, text=True)
        found = [match for line in done.stdout.splitlines() if (match := FACTS.match(line))]
        if len(found) != 1 or ", 0 wrong\n" not in done.stdout:
            faults.append(done.stdout[:2000])
        for match in found:
            counts = [a + int(b) for a, b in zip(counts, match.groups(), strict=True)]
    print(f"{it.pairs} pairs in {rows} rows: {counts[0]} commits fast, {counts[1]} slow by a count, {counts[2]} by users; {counts[3]} refused")
    return tell_faults(faults, 3)


if __name__ == "__main__":
    sys.exit(main())
