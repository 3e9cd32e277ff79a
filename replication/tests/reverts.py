"""examples/revert.py: changesets that are undone whole, and those of which somebody has changed something since."""

from __future__ import annotations

import os
import subprocess
import sys
from typing import Any

import edits
from edits import Session, deletion, node, relation, way
from export_osm import read_kind
from map_client import KINDS, Client, Key, key
from parts import TOP, USERS, Programs, url
from serving import Server, Wrong

REVERT = os.path.join(TOP, "examples", "revert.py")
Contents = dict[Key, Any]


class Trial:
    """A server, and who reverts."""

    def __init__(self, server: str, folder: str) -> None:
        self.server, self.token = server, os.path.join(folder, "token.txt")
        with open(self.token, "w", encoding="utf-8") as file:
            file.write("bobtoken\n")

    def revert(self, changeset: int, status: int, *more: str) -> list[str]:
        """What it says of what is skipped, in its lines; it has to end with that status."""
        words = [REVERT, "--server", self.server, "--token-file", self.token, str(changeset), *more]
        done = subprocess.run([sys.executable, *words], capture_output=True, text=True, timeout=60, check=False)
        if done.returncode != status:
            raise Wrong(f"revert of changeset {changeset} ends with status {done.returncode}: {done.stdout}{done.stderr}")
        return [line.removeprefix("skipped: ") for line in done.stdout.splitlines() if line.startswith("skipped: ")]

    def contents(self) -> Contents:
        """What each element of the map is; those that are deleted aren't told."""
        client = Client(self.server)
        elements = [it for kind in KINDS for it in read_kind(client, kind) if it["visible"]]
        return {key(it): [it.get(name) for name in ("lat7", "lon7", "nodes", "members", "tags")] for it in elements}

    def newest(self) -> int:
        found: int = Client(self.server).ask("GET", "changesets")["changesets"][0]["id"]
        return found

    def expect(self, what: str, found: Contents, wanted: Contents) -> None:
        wrong = sorted(name for name in found.keys() | wanted.keys() if found.get(name) != wanted.get(name))
        if wrong:
            raise Wrong(f"{what}: {wrong} aren't as they should be, as {found.get(wrong[0])} in place of {wanted.get(wrong[0])}")


def circle(session: Session) -> list[int]:
    """Two relations that list each other, and one that lists itself."""
    rows = session.upload({"create": [relation(-1, []), relation(-2, [("relation", -1, "a")]), relation(-3, [])]})
    first, second, alone = (row["new_id"] for row in rows)
    session.modify(1, relation(first, [("relation", second, "b")], type="circle"))
    session.modify(1, relation(alone, [("relation", alone, "self"), ("node", 1, "")]))
    return [first, second, alone]


def of_every_kind(session: Session, gone: int, old: list[int]) -> None:
    """Creates, changes, deletes and brings back elements that list one another, in circles too."""
    session.upload(
        {"create": [node(-1, 500), node(-2, 501, natural="tree"), way(-1, [-1, 3, -2]), relation(-1, [("way", -1, ""), ("node", 3, "")])]},
        {"modify": [{**way(1, [3, -1, 1], highway="steps"), "version": 1}, {**node(gone, 502), "version": 2}]},
    )
    circle(session)
    for version in (1, 2):
        session.modify(version, node(1, 510 + version, a=str(version)))
    session.upload({"create": [node(-1, 503)]}, deletion(("node", -1, 1)))
    session.upload(deletion(("relation", 2, 1), ("relation", 1, 1), ("way", 2, 1), ("node", 2, 1)))
    versions = [2, 1, 2]
    for number, version in zip(old, versions, strict=True):
        session.upload({"modify": [{**relation(number, []), "version": version}]})
    session.upload(deletion(*(("relation", number, version + 1) for number, version in zip(old, versions, strict=True))))


def whole(trial: Trial, before: Session) -> int:
    """A changeset of everything is undone, that of the undoing too, and then nothing is left to do."""
    (gone,) = before.create(node(-1, 600))
    before.delete("node", gone, 1)
    old = circle(before)
    start = trial.contents()
    session = Session(trial.server)
    of_every_kind(session, gone, old)
    changed = trial.contents()
    trial.revert(session.changeset, 0, "--comment", "a trial")
    undone = trial.newest()
    row = Client(trial.server).ask("GET", f"changeset/{undone}")["changeset"]
    if row["open"] or row["tags"]["comment"] != "a trial" or row["user"] != "bob":
        raise Wrong(f"the changeset of the undoing is {row}")
    trial.expect("undone", trial.contents(), start)
    trial.revert(undone, 0)
    trial.expect("undone twice", trial.contents(), changed)
    return len([name for name in start.keys() | changed.keys() if start.get(name) != changed.get(name)])


def skipped_ones(trial: Trial) -> list[str]:
    """What somebody has changed since, with what hangs on it, stays and is told; the rest is undone."""
    base, session, other = (Session(trial.server) for _ in range(3))
    moved, still, private, corner, end = base.create(*(node(-it, 700 + it) for it in range(1, 6)))
    (path,) = base.create(way(-1, [corner, end], highway="path"))
    start = trial.contents()
    session.modify(1, node(moved, 800))
    session.modify(1, node(still, 801))
    session.modify(1, node(private, 802))
    (new,) = session.create(node(-1, 803))
    session.upload(deletion(("way", path, 1), ("node", corner, 1)))
    other.modify(2, node(moved, 900))
    (over,) = other.create(way(-1, [new, still]))
    other.modify(2, node(corner, 901))
    other.delete("node", corner, 3)
    redaction = other.moderator.ask("POST", "redactions", {"title": "private"})
    other.moderator.ask("POST", f"node/{private}/1/redact?redaction={redaction}")
    wanted = {**trial.contents(), ("node", still): start["node", still]}
    told = trial.revert(session.changeset, 1)
    trial.expect("undone in part", trial.contents(), wanted)
    right = [
        f"node {moved}, of which version 3 by alice came later",
        f"node {private}, of which version 1 is redacted",
        f"node {corner}, of which version 4 by alice came later",
        f"node {new}, which way {over} still lists",
        f"way {path}, which lists node {corner}, and that is deleted",
    ]
    if told != right:
        raise Wrong(f"skipped are {told} in place of {right}")
    again = trial.contents()
    trial.revert(session.changeset, 1)
    trial.expect("undone again", trial.contents(), again)
    return told


def hidden(trial: Trial) -> None:
    """A version of the changeset itself is redacted; and no changeset, and no token."""
    session, other = Session(trial.server), Session(trial.server)
    (number,) = session.create(node(-1, 1_000))
    other.modify(1, node(number, 1_001))
    redaction = session.moderator.ask("POST", "redactions", {"title": "private"})
    session.moderator.ask("POST", f"node/{number}/1/redact?redaction={redaction}")
    if trial.revert(session.changeset, 1) != ["versions that are redacted and aren't shown: 1"]:
        raise Wrong("a version that is redacted isn't told of")
    trial.revert(10**6, 3)
    trial.token = os.devnull
    trial.revert(1, 2)


def reverts(programs: Programs, folder: str) -> str:
    with Server(programs.server, 8, USERS) as server:
        trial, session = Trial(url(server.port), folder), Session(url(server.port))
        edits.first_edits(session)
        count = whole(trial, session)
        told = skipped_ones(trial)
        hidden(trial)
    return f"a changeset of {count} elements is undone and that is undone again; {len(told)} that can't be undone are told, and the rest is"
