"""Changesets as files: what OSM's programs read of them is what the server has, and what closes by itself is told too."""

from __future__ import annotations

import gzip
import os
import xml.etree.ElementTree as xml
from typing import Any

import osmium

import edits
from edits import Session
from folder import Folder, State
from made import Changesets, Counts, Piece
from map_client import Client
from parts import USERS, Programs, Running, url
from serving import Server, Wrong

TAGS = {"comment": 'a "park" & <more>\n\u00df \U0001f333', "created_by": "by hand", "empty": ""}


class Reader(osmium.SimpleHandler):
    """The last that files told of each changeset, in the form of the server's."""

    def __init__(self) -> None:
        super().__init__()
        self.found: dict[int, dict[str, Any]] = {}
        self.count = 0

    def changeset(self, it: Any) -> None:
        self.count += 1
        row = {"id": it.id, "created_at": stamp(it.created_at), "open": it.open, "uid": it.uid, "user": it.user}
        row |= {"changes_count": it.num_changes, "tags": {tag.k: tag.v for tag in it.tags}}
        if not it.open:
            row["closed_at"] = stamp(it.closed_at)
        if it.bounds.valid():
            low, high = it.bounds.bottom_left, it.bounds.top_right
            row |= {"minlat7": low.y, "minlon7": low.x, "maxlat7": high.y, "maxlon7": high.x}
        self.found[it.id] = row


def stamp(moment: Any) -> str:
    return str(moment.strftime("%Y-%m-%dT%H:%M:%SZ"))


def read_all(folder: Folder) -> Reader:
    """Each file up to the one that state.yaml names, which is that of state.txt."""
    state, reader = folder.newest(), Reader()
    with open(os.path.join(folder.path, "changesets", "state.yaml"), encoding="utf-8") as file:
        text = file.read()
    if state is None or text != state.yaml():
        raise Wrong(f"state.yaml says {text!r} beside {state}")
    for sequence in range(state.sequence + 1):
        name = folder.base(sequence, "changesets") + ".osm.gz"
        with gzip.open(name) as packed:
            root = xml.parse(packed).getroot()
        if root.tag != "osm" or any(it.attrib["comments_count"] != "0" or "num_changes" not in it.attrib for it in root):
            raise Wrong(f"{name} has another form")
        reader.apply_file(name)
    return reader


def make_some(server: str) -> None:
    """Open and closed ones, tags that XML has to write with care, changes and none."""
    session = Session(server)
    edits.first_edits(session)
    session.mapper.ask("PUT", f"changeset/{session.changeset}", {"tags": TAGS})
    session.mapper.ask("PUT", f"changeset/{session.changeset}/close")
    session.moderator.ask("PUT", "changeset/create", {"tags": {}})
    Session(server).mapper.ask("PUT", "changeset/create", {"tags": TAGS})


def as_the_server(folder: Folder, server: str) -> int:
    reader, client = read_all(folder), Client(server)
    wanted = {number: client.ask("GET", f"changeset/{number}")["changeset"] for number in reader.found}
    if sorted(reader.found) != list(range(1, len(reader.found) + 1)):
        raise Wrong(f"changesets {sorted(reader.found)} are told of")
    for number, row in wanted.items():
        if reader.found[number] != row:
            raise Wrong(f"changeset {number} is {reader.found[number]} in the files, and {row} at the server")
    return reader.count


def by_themselves() -> None:
    """What closes without a piece is told once, at the next interval; what is open and unchanged isn't."""
    followed, counts = Changesets(), Counts()
    for _ in range(3):
        followed.add(Piece(100, {"act": "create_changeset", "tags": {}}), counts)
    rows = [{"id": number, "open": number != 2} for number in followed.to_look_at()]
    told = [[it["id"] for it in followed.told(rows)]]
    followed.add(Piece(200, {"act": "redact", "id": 1}), counts)
    followed.add(Piece(200, {"act": "retag", "changeset": 3, "tags": {}}), counts)
    for is_open in (True, False, False):
        rows = [{"id": number, "open": is_open or number == 3} for number in followed.to_look_at()]
        told.append([it["id"] for it in followed.told(rows)])
    if told != [[1, 2, 3], [3], [1], []] or followed.open != {3}:
        raise Wrong(f"of changesets that close by themselves {told} are told")
    for at in (100, 100_000):
        followed.add(Piece(at, {"act": "create_changeset", "tags": {}}), counts)
    followed.open.discard(3)
    followed.forget(100_001)
    if followed.open != {5} or followed.changed:
        raise Wrong(f"a day later {followed.open} may be open")


def once(programs: Programs, port: int, www: str) -> None:
    """An end may come between state.txt and state.yaml: the next start makes up for it."""
    status, said = Running(programs, port, www, "--once").end()
    if status:
        raise Wrong(f"it ends with status {status}: {said}")


def changesets(programs: Programs, folder: str) -> str:
    www = os.path.join(folder, "www")
    by_themselves()
    if State(7, 1700000000, 5, "").yaml() != "---\nlast_run: 2023-11-14 22:13:20.000000000 Z\nsequence: 7\n":
        raise Wrong("a state of changesets has another form")
    with Server(programs.server, 8, USERS) as server:
        for _ in range(2):  # the second time it goes on from what is kept
            with Running(programs, server.port, www) as running:
                make_some(url(server.port))
                running.wait_for(Session(url(server.port)))
            once(programs, server.port, www)
            told = as_the_server(running.folder, url(server.port))
        os.remove(os.path.join(www, "changesets", "state.yaml"))  # as where a break came before it
        once(programs, server.port, www)
        count = as_the_server(running.folder, url(server.port))
    if count != told:
        raise Wrong(f"without state.yaml there are {count} changesets, and {told} before")
    return f"{count} times a changeset is told of, and pyosmium reads of the last time what the server has; state.yaml goes with state.txt"
