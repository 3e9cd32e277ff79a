"""Dumps of a map that is being edited: read back by osmium they are one point of it, and they go on by its changes."""

from __future__ import annotations

import json
import os
import re
import threading
import time
from typing import Any

import edits
import followers
import osmium
import same
from changesets import Reader
from edits import Session
from map_client import KINDS, Client
from parts import TOP, USERS, Programs, Running, compare, export, url
from serving import Server, Wrong

DUMP = os.path.join(TOP, "examples", "dump.py")
Version = tuple[str, int, int]


class History(osmium.SimpleHandler):
    """Each version of a file, in the form of the server's."""

    def __init__(self) -> None:
        super().__init__()
        self.found: dict[Version, dict[str, Any]] = {}

    def keep(self, kind: str, it: Any, **content: Any) -> None:
        row = {"type": kind, "id": it.id, "version": it.version, "visible": it.visible, "changeset": it.changeset}
        row |= {"timestamp": it.timestamp.strftime("%Y-%m-%dT%H:%M:%SZ"), "uid": it.uid, "user": it.user}
        if it.visible:
            row |= {"tags": {tag.k: tag.v for tag in it.tags}, **content}
        if (kind, it.id, it.version) in self.found:
            raise Wrong(f"{kind} {it.id} {it.version} is in the history twice")
        self.found[kind, it.id, it.version] = row

    def node(self, it: Any) -> None:
        self.keep("node", it, **({"lat7": it.location.y, "lon7": it.location.x} if it.location.valid() else {}))

    def way(self, it: Any) -> None:
        self.keep("way", it, nodes=[node.ref for node in it.nodes])

    def relation(self, it: Any) -> None:
        kinds = {kind[0]: kind for kind in KINDS}
        self.keep("relation", it, members=[{"type": kinds[member.type], "ref": member.ref, "role": member.role} for member in it.members])


def history_of(path: str) -> dict[Version, dict[str, Any]]:
    reader = History()
    reader.apply_file(path)
    return reader.found


def history_at(server: str) -> dict[Version, dict[str, Any]]:
    """Each version that the server shows to everybody."""
    client, found = Client(server), {}
    for kind in KINDS:
        number = 1
        while versions := history_or_none(client, kind, number):
            found.update({(kind, number, it["version"]): it for it in versions})
            number += 1
    return found


def history_or_none(client: Client, kind: str, number: int) -> list[dict[str, Any]]:
    try:
        rows: list[dict[str, Any]] = client.ask("GET", f"{kind}/{number}/history")["elements"]
        return rows
    except Exception as why:
        if "no_element" not in str(why):
            raise
        return []


def run_dump(programs: Programs, folder: str, *more: str) -> str:
    return followers.run([DUMP, "--mirror", programs.mirror, *more, folder])


class Editing:
    """Somebody who moves two nodes at once, again and again, until the end of a `with`: at each point both have as many versions."""

    def __init__(self, server: str) -> None:
        self.session, self.is_ended = Session(server), False
        self.nodes = self.session.create(edits.node(-1, 1), edits.node(-2, 1))
        self.thread = threading.Thread(target=self.edit)

    def edit(self) -> None:
        version = 1
        while not self.is_ended:
            self.session.upload({"modify": [{**edits.node(it, version), "version": version} for it in self.nodes]})
            version += 1
            time.sleep(0.01)  # a changeset has room for 10,000 changes

    def __enter__(self) -> Editing:
        self.thread.start()
        return self

    def __exit__(self, *_: object) -> None:
        self.is_ended = True
        self.thread.join()


def at_one_point(folder: str, editing: Editing) -> int:
    """The three files are of one point; answers how many versions a node had by then."""
    nodes = editing.nodes
    history = history_of(os.path.join(folder, "history.osh.pbf"))
    counts = [max(version for kind, number, version in history if (kind, number) == ("node", node)) for node in nodes]
    now = same.elements(os.path.join(folder, "map.osm.pbf"))
    reader = Reader()
    reader.apply_file(os.path.join(folder, "changesets.osm.bz2"))
    changes = reader.found[editing.session.changeset]["changes_count"]
    found = sum(it["changeset"] == editing.session.changeset for it in history.values())
    if counts[0] != counts[1] or [now["node", it][0] for it in nodes] != counts or changes != found:
        raise Wrong(f"the dump is of several points: {counts}, {[now['node', it][0] for it in nodes]}, {changes}, {found}")
    return counts[0]


def as_the_server(folder: str, server: Server, work: str) -> tuple[int, int]:
    """Where nobody edits, the files have what the server has."""
    now, history, changesets = (os.path.join(folder, it) for it in ("map.osm.pbf", "history.osh.pbf", "changesets.osm.bz2"))
    wanted = os.path.join(work, "wanted.osm.pbf")
    export(server.port, wanted)
    compare("the dump", now, wanted)
    right, found = history_at(url(server.port)), history_of(history)
    if found != right:
        wrong = [(it, found.get(it), right.get(it)) for it in sorted(right.keys() | found.keys()) if found.get(it) != right.get(it)]
        raise Wrong(f"the history differs in {len(wrong)} versions, as {wrong[0]}")
    filtered = os.path.join(work, "filtered.osm.pbf")
    followers.run(["osmium", "time-filter", history, "-o", filtered])
    compare("osmium's map of the history", filtered, now)
    reader, client = Reader(), Client(url(server.port))
    reader.apply_file(changesets)
    if reader.found != {it: client.ask("GET", f"changeset/{it}")["changeset"] for it in range(1, len(reader.found) + 1)}:
        raise Wrong("the changesets of the dump aren't the server's")
    check_heads(now, history, changesets)
    return len(found), len(reader.found)


def check_heads(now: str, history: str, changesets: str) -> None:
    """Each file has the box of what is in it, and a history says that it is one."""
    nodes = [it for name, it in same.elements(now).items() if name[0] == "node"]
    west, east = min(it[6] for it in nodes), max(it[6] for it in nodes)
    for path in (now, history, changesets):
        told = json.loads(followers.run(["osmium", "fileinfo", "-j", path]))["header"]
        box = [round(it * 1e7) for it in told["boxes"][0]]
        if path != changesets and (box[0], box[2]) != (west, east) or told["with_history"] != (path == history):
            raise Wrong(f"{path} has the head {told}; its nodes lie from {west} to {east}")


def dumps(programs: Programs, folder: str) -> str:
    www, out, token = (os.path.join(folder, it) for it in ("www", "out", "token.txt"))
    with open(token, "w", encoding="utf-8") as file:
        file.write("bobtoken\n")
    with Server(programs.server, 8, USERS) as server, Running(programs, server.port, www) as running, followers.Files(www) as files:
        session, at = Session(url(server.port)), ("--feed", url(server.port), "--token-file", token)
        edits.first_edits(session)
        edits.brought_back(session)
        edits.unless_used(session)
        edits.redacted(session, session.moderator.ask("POST", "redactions", {"title": "private"}))
        with Editing(url(server.port)) as editing:
            run_dump(programs, out, *at)
            version = at_one_point(out, editing)
            running.wait_for(session)
            begun = os.path.join(folder, "begun")
            told = run_dump(programs, begun, *at, "--replication", files.url)
            at_one_point(begun, editing)
        state = running.wait_for(session)
        run_dump(programs, out, *at)
        counts = as_the_server(out, server, folder)
        followed = os.path.join(folder, "followed.osm.pbf")
        followers.by_pyosmium(os.path.join(begun, "map.osm.pbf"), followed)
        compare("the dump brought up to date", followed, os.path.join(out, "map.osm.pbf"))
    by_file = os.path.join(folder, "by_file")
    run_dump(programs, by_file, "--journal", www + ".mirror.journal")
    compare("the dump of a journal's file", os.path.join(by_file, "map.osm.pbf"), os.path.join(out, "map.osm.pbf"))
    piece = re.match(r"to piece (\d+):", told)
    if piece is None or int(piece[1]) > state.piece:
        raise Wrong(f"it says {told}")
    return (
        f"{counts[0]} versions and {counts[1]} changesets as osmium reads them are the server's, and the map is; while somebody edits, "
        f"at version {version}, all files are of one point, from which pyosmium goes on"
    )
