#!/usr/bin/env python3
"""Many people at once: examples/many_clients.py [--program ./osm] [--workers 8] [--clients 64] [--seconds 60]
    [--kept 25] [--seed 1]

Starts `PROGRAM serve` on a free port. Each client edits and reads over kept links, each of at most `kept`
requests, so that clients can take turns where there are fewer workers. Each reply is recorded in the order
of its client. Then the map is read back whole and the records are checked against it:

- each accepted upload stands in the download of its changeset once, whole and in one piece; nothing else does;
- the versions of each element are 1, 2, 3 .., the same in its history as in the downloads;
- what a client saw never goes back: where it saw a version, it sees no state from before the upload that
  made it, nor from before those that this one rests on; the same holds within one reply;
- no visible way or relation names an element that isn't visible, at the end and in each reply of a whole way.

Status 0 where all of it holds, 1 where something doesn't.
"""

from __future__ import annotations

import argparse
import collections
import multiprocessing
import random
import sys
import time
from typing import Any, NamedTuple

import serving
from serving import Link, Reply, Server

Key = tuple[str, int]
Versions = list[tuple[Key, int]]
REFUSALS = {"version", "closed", "full", "owner", "gone", "missing", "used", "no_element", "no_changeset"}
KINDS = ("node", "way", "relation")
BOX = "map?bbox=11.5,48.1,11.51,48.11"
SHARED, KNOWN = 40, 100


class Upload(NamedTuple):
    """An accepted upload: its changeset and the versions that it made, as the download has to have them."""

    changeset: int
    made: list[dict[str, Any]]


class Record(NamedTuple):
    """A client's replies in their order: what each showed, and the upload where it accepted one."""

    seen: list[tuple[Versions, Upload | None]]
    counts: collections.Counter[str]
    faults: list[str]


def key(element: dict[str, Any]) -> Key:
    return element["type"], element["id"]


def shown(element: dict[str, Any]) -> tuple[Key, int]:
    return key(element), element["version"]


class Client:
    """One person, with a name of its own in the tags of what it makes."""

    def __init__(self, port: int, user: int, name: str, kept: int, seed: int) -> None:
        self.link, self.user, self.name = Link(port, f"token{user}", kept), user, name
        self.draw = random.Random(seed)
        self.known: dict[str, dict[int, dict[str, Any]]] = {kind: {} for kind in KINDS}
        self.changeset = self.turn = 0
        self.record = Record([], collections.Counter(), [])

    def ask(self, method: str, path: str, body: Any = None) -> Reply:
        reply = self.link.ask(method, path, body)
        name = "accepted" if reply.status == 200 else reply.read()["error"]
        self.record.counts[name if method != "GET" else f"GET {name}"] += 1
        if method != "GET" and reply.status != 200 and name not in REFUSALS:
            self.record.faults.append(f"{method} {path}: {reply.body[:200]!r}")
        return reply

    def note(self, elements: list[dict[str, Any]]) -> None:
        self.record.seen.append(([shown(element) for element in elements], None))
        self.learn(elements)

    def learn(self, elements: list[dict[str, Any]]) -> None:
        for element in elements:
            some = self.known[element["type"]]
            some[element["id"]] = element
            if len(some) > KNOWN:
                del some[next(iter(some))]

    def open(self) -> int:
        """A changeset: one that another client of the same user may have opened, or a new one."""
        if self.draw.random() < 0.5:
            rows = self.ask("GET", f"changesets?user={self.user}&open=true").read()["changesets"]
            if rows:
                return int(rows[0]["id"])
        return int(self.ask("PUT", "changeset/create", {"tags": {"by": self.name}}).body)

    def placed(self, shared: bool) -> dict[str, int]:
        """A place: in the box that is asked for, or north of it."""
        south = 481000000 if shared else 481200000
        return {"lat7": south + self.draw.randrange(100000), "lon7": 115000000 + self.draw.randrange(100000)}

    def tags(self) -> dict[str, str]:
        return {"by": self.name, "turn": str(self.turn)}

    def of(self, kind: str) -> dict[str, Any] | None:
        """A known element of that kind, seldom a new one: so clients meet."""
        some = self.known[kind]
        return some[min(self.draw.choices(list(some), k=2))] if some else None

    def creation(self) -> list[tuple[str, dict[str, Any]]]:
        """Nodes and a way over them, sometimes over a known node too, and sometimes a relation of it."""
        count = self.draw.randint(1, 10)
        made = [{"type": "node", "id": -i, **self.placed(False), "tags": self.tags()} for i in range(1, count + 1)]
        old = self.of("node") if self.draw.random() < 0.2 else None
        refs = [-i for i in range(1, count + 1)] + ([old["id"]] if old else [])
        made.append({"type": "way", "id": -1, "nodes": refs, "tags": self.tags()})
        if self.draw.random() < 0.2:
            made.append({"type": "relation", "id": -1, "members": [{"type": "way", "ref": -1, "role": "r"}], "tags": self.tags()})
        return [("create", it) for it in made]

    def change(self) -> list[tuple[str, dict[str, Any]]]:
        """A known node moved, often with a known way turned round in the same upload."""
        todo = []
        node, way = self.of("node"), self.of("way")
        if node:
            place = self.placed(node["id"] <= SHARED)
            todo.append({"type": "node", "id": node["id"], "version": node["version"], **place, "tags": self.tags()})
        if way and way["visible"] and self.draw.random() < 0.6:
            todo.append({"type": "way", "id": way["id"], "version": way["version"], "nodes": way["nodes"][::-1], "tags": self.tags()})
        return [("modify", it) for it in todo]

    def removal(self) -> list[tuple[str, dict[str, Any]]]:
        kinds = self.draw.choice((("way", "node"), ("node",), ("relation", "way")))
        some = [it for it in map(self.of, kinds) if it]
        return [("delete", {"type": it["type"], "id": it["id"], "version": it["version"]}) for it in some]

    def edit(self) -> None:
        todo = self.draw.choices((self.creation, self.change, self.removal), (3, 6, 2))[0]()
        if not self.changeset:
            self.changeset = self.open()
        skips = self.draw.random() < 0.3
        blocks = [{action: [it]} | ({"if-unused": True} if skips and action == "delete" else {}) for action, it in todo]
        reply = self.ask("POST", f"changeset/{self.changeset}/upload", {"osmChange": blocks})
        if reply.status == 200:
            self.accepted(todo, reply.read()["diffResult"])
        else:
            self.refused(reply.read())

    def accepted(self, todo: list[tuple[str, dict[str, Any]]], rows: list[dict[str, Any]]) -> None:
        made: list[dict[str, Any]] = []
        skipped: Versions = []
        ids: dict[Key, int] = {}
        of_changeset = {"changeset": self.changeset, "uid": self.user}
        for (action, asked), row in zip(todo, rows, strict=True):
            number = row.get("new_id", row["old_id"])
            ids[asked["type"], asked["id"]] = number
            if action == "delete" and "new_version" in row:
                skipped.append(((asked["type"], number), row["new_version"]))
                continue
            version = asked["version"] + 1 if action == "delete" else row["new_version"]
            new = {**asked, "id": number, "version": version, "visible": action != "delete", **of_changeset}
            if "nodes" in asked:
                new["nodes"] = [ids.get(("node", it), it) for it in asked["nodes"]]
            if "members" in asked:
                new["members"] = [{**it, "ref": ids.get((it["type"], it["ref"]), it["ref"])} for it in asked["members"]]
            made.append(new)
        self.learn(made)
        upload = Upload(self.changeset, made) if made else None
        self.record.seen.append(([shown(it) for it in made] + skipped, upload))

    def refused(self, why: dict[str, Any]) -> None:
        """What a refusal tells of the map is seen too."""
        if why["error"] == "version":
            self.record.seen.append(([((why["type"], why["id"]), why["found"])], None))
        if why["error"] in ("closed", "full", "owner"):
            self.changeset = 0
        if "type" in why:
            self.known[why["type"]].pop(why["id"], None)

    def read(self) -> None:
        kind = self.draw.choice(KINDS)
        it = self.of(kind)
        if it is None:
            return self.look()
        path = f"{kind}/{it['id']}"
        ask = self.draw.choice(("", "/history", "/full"))
        if ask == "/full" and kind == "node":
            ask = ""
        reply = self.ask("GET", path + ask)
        if reply.status != 200:
            return
        elements = reply.read()["elements"]
        if ask == "/history":
            self.numbered(path, elements)
            elements = elements[-1:]
        if ask == "/full":
            self.whole(path, elements)
        self.note(elements)

    def look(self) -> None:
        """Many shared elements at once, or the map of the box where all of them are."""
        kind = self.draw.choice(("nodes", "ways"))
        ids = ",".join(map(str, range(1, SHARED + 1 if kind == "nodes" else SHARED // 10 + 1)))
        path = BOX if self.draw.random() < 0.05 else f"{kind}?{kind}={ids}"
        reply = self.ask("GET", path)
        if reply.status == 200:
            elements = reply.read()["elements"]
            if path == BOX:
                self.whole(path, elements)
            self.note(elements)

    def numbered(self, path: str, elements: list[dict[str, Any]]) -> None:
        if [it["version"] for it in elements] != list(range(1, len(elements) + 1)):
            self.record.faults.append(f"{path}/history: versions {[it['version'] for it in elements]}")

    def whole(self, path: str, elements: list[dict[str, Any]]) -> None:
        """Each node of each way is there with it, and visible."""
        nodes = {it["id"] for it in elements if it["type"] == "node" and it["visible"]}
        for way in elements:
            if way["type"] == "way" and way["visible"] and not nodes.issuperset(way["nodes"]):
                self.record.faults.append(f"{path}: way {way['id']} without {set(way['nodes']) - nodes}")

    def work(self, until: float) -> Record:
        while time.monotonic() < until:
            self.turn += 1
            self.draw.choices((self.edit, self.read, self.look, self.leave), (10, 12, 1, 0.2))[0]()
        self.link.close()
        self.record.counts["links"] = self.link.links
        return self.record

    def leave(self) -> None:
        """Closes the changeset, which another client of this user may be using."""
        if self.changeset:
            self.ask("PUT", f"changeset/{self.changeset}/close")
            self.changeset = 0


def run(words: tuple[int, int, str, int, int, float]) -> Record:
    client, seconds = Client(*words[:-1]), words[-1]
    try:
        return client.work(time.monotonic() + seconds)
    except (OSError, serving.Lost) as why:
        client.record.faults.append(f"{client.name}: {why!r}")
        return client.record


def prepare(port: int) -> Record:
    """The shared nodes, and ways over ten of them each."""
    client = Client(port, 1, "shared", 1000, 0)
    client.changeset = client.open()
    todo = [("create", {"type": "node", "id": -i, **client.placed(True), "tags": client.tags()}) for i in range(1, SHARED + 1)]
    for i in range(SHARED // 10):
        todo.append(("create", {"type": "way", "id": -i - 1, "nodes": [-10 * i - k for k in range(1, 11)], "tags": client.tags()}))
    reply = client.ask("POST", f"changeset/{client.changeset}/upload", {"osmChange": [{a: [it]} for a, it in todo]})
    client.accepted(todo, reply.read()["diffResult"])
    client.link.close()
    return client.record


# ---- what the server hands out at the end


def slices(words: tuple[int, str, list[int]]) -> list[Any]:
    """For each number what the server tells of it."""
    port, path, numbers = words
    link = Link(port)
    return [link.ask("GET", path % number).read() for number in numbers]


class Map:
    """The map, read back whole: the versions by changeset, the histories by element."""

    def __init__(self, pool: Any, port: int, parts: int) -> None:
        self.pool, self.port, self.parts = pool, port, parts
        newest = Link(port).ask("GET", "changesets").read()["changesets"][0]["id"]
        numbers = list(range(1, newest + 1))
        self.rows = [it["changeset"] for it in self.all("changeset/%d", numbers)]
        self.downloads = {
            number: [element for block in it["osmChange"] for (element,) in block.values()]
            for number, it in zip(numbers, self.all("changeset/%d/download", numbers))
        }
        self.places = {shown(it): i for download in self.downloads.values() for i, it in enumerate(download)}
        self.versions = {shown(it): it for download in self.downloads.values() for it in download}
        self.histories: dict[Key, list[dict[str, Any]]] = {}
        for kind in KINDS:
            ids = sorted({name[1] for name, _ in self.versions if name[0] == kind})
            self.histories.update(((kind, i), it["elements"]) for i, it in zip(ids, self.all(f"{kind}/%d/history", ids)))

    def all(self, path: str, numbers: list[int]) -> list[Any]:
        size = -(-len(numbers) // self.parts) or 1
        parts = [(self.port, path, numbers[i : i + size]) for i in range(0, len(numbers), size)]
        return [it for part in self.pool.map(slices, parts) for it in part]


# ---- the checks


def same(asked: dict[str, Any], stands: dict[str, Any]) -> bool:
    """Whether a version stands as it was asked for; a deleted one has nothing but its place in the history."""
    wanted = {k: v for k, v in asked.items() if asked["visible"] or k in ("type", "id", "version", "visible", "changeset", "uid")}
    return all(stands.get(name) == value for name, value in wanted.items())


def check_uploads(records: list[Record], found: Map) -> list[str]:
    """Each upload once, whole and in one piece in its changeset, and nothing besides."""
    faults, left = [], sum(map(len, found.downloads.values()))
    for upload in (it for record in records for _, it in record.seen if it):
        download = found.downloads[upload.changeset]
        first = found.places.get(shown(upload.made[0]), -1)
        piece = download[first : first + len(upload.made)] if first >= 0 else []
        if len(piece) < len(upload.made) or not all(map(same, upload.made, piece)):
            faults.append(f"an upload to changeset {upload.changeset} isn't there whole: {upload.made[0]}")
        left -= len(upload.made)
    if left or len(found.places) != sum(map(len, found.downloads.values())):
        faults.append(f"{left} versions in the downloads that no accepted upload made, {len(found.places)} differ")
    for row in found.rows:
        if row["changes_count"] != len(found.downloads[row["id"]]):
            faults.append(f"changeset {row['id']} counts {row['changes_count']} changes and has {len(found.downloads[row['id']])}")
    return faults


def check_histories(found: Map) -> list[str]:
    faults = []
    for name, history in found.histories.items():
        if [it["version"] for it in history] != list(range(1, len(history) + 1)):
            faults.append(f"{name} has the versions {[it['version'] for it in history]}")
        if any(found.versions.get(shown(it)) != it for it in history):
            faults.append(f"{name} is another one in the downloads")
    if sum(map(len, found.histories.values())) != len(found.versions):
        faults.append("a version of the downloads is in no history")
    last = {name: history[-1] for name, history in found.histories.items()}
    seen = {name for name, it in last.items() if it["visible"]}
    for name, it in last.items():
        refs = [("node", ref) for ref in it.get("nodes", ())] + [(m["type"], m["ref"]) for m in it.get("members", ())]
        faults += [f"{name} names {ref}, which isn't visible" for ref in refs if ref not in seen]
    return faults


class Past:
    """Which versions come with which: those of one upload, and those of the uploads before it in its changeset."""

    def __init__(self, records: list[Record], found: Map) -> None:
        self.comes_with: dict[tuple[Key, int], Versions] = {}
        for upload in (it for record in records for _, it in record.seen if it):
            made = [shown(it) for it in upload.made]
            download = found.downloads[upload.changeset]
            first = found.places.get(made[0], 0)
            before = [shown(download[first - 1])] if first else []
            for it in made:
                self.comes_with[it] = made + before

    def rise(self, floors: dict[Key, int], seen: Versions) -> None:
        """Raises the floors by all that has to be there where these versions are."""
        todo = list(seen)
        while todo:
            name, version = todo.pop()
            for new in range(floors.get(name, 0) + 1, version + 1):
                floors[name] = new
                todo += self.comes_with.get((name, new), [])

    def check(self, record: Record) -> list[str]:
        floors: dict[Key, int] = {}
        faults = []
        for seen, _ in record.seen:
            self.rise(floors, seen)
            faults += [f"{name} is seen in version {v} after {floors[name]}" for name, v in seen if v < floors[name]]
        return faults


def tell(records: list[Record], found: Map, faults: list[str]) -> None:
    counts: collections.Counter[str] = sum((record.counts for record in records), collections.Counter())
    links = counts.pop("links")
    uploads = sum(1 for record in records for _, it in record.seen if it)
    print(f"{len(records) - 1} clients, {links} links, {counts.total()} replies")
    print(f"{uploads} uploads in {len(found.downloads)} changesets made {len(found.versions)} versions of {len(found.histories)} elements")
    print(", ".join(f"{name} {count}" for name, count in sorted(counts.items())))
    for fault in faults[:20]:
        print("wrong:", fault)
    print(f"{len(faults)} wrong")


def main() -> int:
    parser = argparse.ArgumentParser(usage=(__doc__ or "").split("\n\n")[0].partition(": ")[2])
    parser.add_argument("--program", default=serving.OSM)
    for name, least in (("workers", 8), ("clients", 64), ("seconds", 60), ("kept", 25), ("seed", 1)):
        parser.add_argument(f"--{name}", type=int, default=least)
    it = parser.parse_args()
    people = [(i // 2 + 1, f"client{i}", it.kept, it.seed * 1000 + i, it.seconds) for i in range(it.clients)]
    users = "".join(f"{i + 1} token{i + 1} user user{i + 1}\n" for i in range(it.clients // 2 + 1))
    with Server(it.program, it.workers, users) as server, multiprocessing.Pool(it.clients) as pool:
        records = [prepare(server.port)] + pool.map(run, [(server.port, *who) for who in people], 1)
        found = Map(pool, server.port, it.workers)
        print(f"the server holds {server.megabytes():.0f} MB and took {sum(server.seconds()):.1f} s of processor time")
    faults = [fault for record in records for fault in record.faults]
    faults += check_uploads(records, found) + check_histories(found)
    past = Past(records, found)
    faults += [fault for record in records for fault in past.check(record)]
    tell(records, found, faults)
    return 1 if faults else 0


if __name__ == "__main__":
    sys.exit(main())
