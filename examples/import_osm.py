#!/usr/bin/python3
"""Loads a file of OpenStreetMap: examples/import_osm.py --server URL [--token-file FILE] [--links 4] [--size 2000]
    [--ids TABLE] FILE

FILE is a .osm, .osm.pbf or .osc. Needs Debian's python3-pyosmium and python3-tqdm, and a worker of the server for
each link. It is read into memory whole. New ids stand in FILE.ids, a line `kind old new version` for each element.
FILE.sent notes what was sent: after a break the same words go on where it ended, and nothing is entered twice.
The token is a user's, and HEGUNSAP_TOKEN of the environment where no file is named.

--ids names such a table, that of a former import. What it has is changed or deleted, and not made anew: a .osc
is applied to what its extract became. Where somebody else has changed an element since, the import stops with the
server's refusal; the version of the table set to the one found writes over it.
"""

from __future__ import annotations

import argparse
import fcntl
import hashlib
import json
import os
import sys
import threading
import time
from collections import Counter
from collections.abc import Callable
from typing import Any

from packages import need

need("osmium", "tqdm")

import tqdm

sys.path.append(os.path.join(os.path.dirname(os.path.dirname(os.path.abspath(__file__))), "replication"))

import import_plan
import osm_file
from given_token import add_token
from import_plan import Table, Upload
from map_client import KINDS, Client, Lost, Refused, key

HOLDS = 10000  # changes of a changeset
PAUSES = (0.5, 1, 2, 4, 8, 16, 30)  # seconds between tries while the server doesn't answer
SILENCE = 5  # seconds until it is said that the server is waited for
# Of each operation the id and the version that came of it, 0 for a deletion.
Made = list[list[int]]


class Stop(Exception):
    """Why an import can't go on."""


class Notes:
    """FILE.sent: lines of JSON, each on the disk before anything else happens."""

    def __init__(self, path: str, digest: str) -> None:
        self.path, self.lock = path, threading.Lock()
        self.file = open(path, "a+", encoding="utf-8")
        try:
            fcntl.flock(self.file, fcntl.LOCK_EX | fcntl.LOCK_NB)
        except BlockingIOError as why:
            raise Stop("another import of this file is running") from why
        lines = self.whole_lines()
        if lines and lines[0] != {"import": digest}:
            raise Stop(f"{path} is of another file, table or size of uploads; remove it to begin anew")
        self.sent = {it["upload"]: it for it in lines if "changeset" in it}
        self.made: dict[int, Made] = {it["upload"]: it["made"] for it in lines if "made" in it}
        if not lines:
            self.add({"import": digest})

    def whole_lines(self) -> list[Any]:
        """The lines that are there, without one that a break cut off."""
        self.file.seek(0)
        text = self.file.read()
        whole = text[: text.rfind("\n") + 1]
        self.file.truncate(len(whole.encode()))
        return [json.loads(line) for line in whole.splitlines()]

    def add(self, line: dict[str, Any]) -> None:
        with self.lock:
            self.file.write(json.dumps(line, separators=(",", ":")) + "\n")
            self.file.flush()
            os.fsync(self.file.fileno())


class Board:
    """The uploads that several links take, and the ids that came of them."""

    def __init__(self, uploads: list[Upload], table: Table, notes: Notes, progress: Any) -> None:
        self.uploads, self.table, self.notes, self.progress = uploads, table, notes, progress
        self.turn = threading.Condition()
        self.done: set[int] = set()
        self.fault = self.said = ""
        for number, made in notes.made.items():
            self.enter(number, made)
        self.left = [number for number in range(len(uploads)) if number not in self.done]

    def take(self, rest: Callable[[], None]) -> int | None:
        """The next upload whose references are there, waited for after `rest`; none where all are taken."""
        with self.turn:
            while self.left and not self.fault:
                ready = next((it for it in self.left if self.uploads[it].after <= self.done), None)
                if ready is not None:
                    self.left.remove(ready)
                    return ready
                rest()
                self.turn.wait()
        return None

    def finish(self, number: int, made: Made) -> None:
        self.notes.add({"upload": number, "made": made})
        with self.turn:
            self.said = ""
            self.enter(number, made)
            self.turn.notify_all()

    def enter(self, number: int, made: Made) -> None:
        for (_, it), (new, version) in zip(self.uploads[number].operations, made, strict=True):
            if version:
                self.table[key(it)] = new, version
            else:
                del self.table[key(it)]
        self.done.add(number)
        self.progress.update(len(made))

    def say(self, text: str) -> None:
        """Says once what is waited for, until an upload is entered."""
        with self.turn:
            if text != self.said:
                self.said = text
                self.progress.write(f"import_osm.py: {text}", file=sys.stderr)

    def fail(self, why: str) -> None:
        with self.turn:
            self.fault = self.fault or why
            self.turn.notify_all()


class Sender:
    """A link, and the changeset that it fills."""

    def __init__(self, board: Board, server: str, token: str, tags: dict[str, str]) -> None:
        self.board, self.client, self.tags = board, Client(server, token), tags
        self.changeset = self.count = 0

    def work(self) -> None:
        try:
            while (number := self.board.take(self.client.close)) is not None:
                self.board.finish(number, self.send(number))
            self.leave()
        except (Refused, Stop) as why:
            self.board.fail(str(why))
        except Lost as why:
            self.board.fail(f"{why}; the same words go on from there")
        finally:
            self.client.close()

    def send(self, number: int) -> Made:
        """Sends an upload until it is known to stand in the map, once."""
        sent = self.board.notes.sent.pop(number, None)
        for pause in (*PAUSES, None):
            try:
                made = self.entered(sent) if sent else None
                if made is None:
                    sent = self.note(number)
                    made = self.upload(number)
                return made
            except Lost as why:
                self.changeset = 0
                if pause is None:
                    raise
                self.board.say(f"no reply to {why}; it is tried again, for {sum(PAUSES):.0f} seconds at most")
                time.sleep(pause)
        raise AssertionError

    def note(self, number: int) -> dict[str, int]:
        """Notes in which changeset an upload is sent now, behind how many changes of it."""
        size = len(self.board.uploads[number].operations)
        if not self.changeset or self.count + size > HOLDS:
            self.leave()
            self.changeset, self.count = self.client.ask("PUT", "changeset/create", {"tags": self.tags}), 0
        line = {"upload": number, "changeset": self.changeset, "before": self.count, "size": size}
        self.board.notes.add(line)
        return line

    def upload(self, number: int) -> Made:
        operations = self.board.uploads[number].operations
        change = import_plan.body(operations, self.board.table)
        try:
            rows = self.client.ask("POST", f"changeset/{self.changeset}/upload", change)["diffResult"]
        except Refused as why:
            if why.error == "closed":  # an hour has passed, or somebody closed it
                raise Lost(str(why)) from why
            place = why.why.get("op", 0)
            of = " of {} {} of the file".format(*key(operations[place - 1].element)) if place else ""
            raise Stop(f"upload {number}{of}: {why}") from why
        self.count += len(rows)
        return [[row.get("new_id", row["old_id"]), row.get("new_version", 0)] for row in rows]

    def entered(self, sent: dict[str, int]) -> Made | None:
        """What came of an upload whose reply was lost, none where it never came. Its changeset is closed first, so
        that it can't come any more."""
        path = f"changeset/{sent['changeset']}"
        try:
            self.client.ask("PUT", f"{path}/close")
        except Refused as why:
            if why.error != "closed":
                raise
        blocks = self.client.ask("GET", f"{path}/download")["osmChange"]
        made = [it for block in blocks for (it,) in block.values()][sent["before"] :]
        if made and len(made) != sent["size"]:
            raise Stop(f"changeset {sent['changeset']} has {len(made)} changes that no upload of {sent['size']} made")
        return [[it["id"], it["version"] if it["visible"] else 0] for it in made] or None

    def leave(self) -> None:
        """Closes the changeset; where no reply comes the server does, within an hour."""
        try:
            if self.changeset:
                self.client.ask("PUT", f"changeset/{self.changeset}/close")
        except (Lost, Refused):
            pass
        self.changeset = 0


# ---- files beside the input


def read_table(path: str) -> Table:
    with open(path, encoding="utf-8") as file:
        rows = [line.split() for line in file]
    return {(kind, int(old)): (int(new), int(version)) for kind, old, new, version in rows}


def write_table(path: str, table: Table) -> None:
    rows = sorted(table.items(), key=lambda it: (KINDS.index(it[0][0]), it[0][1]))
    with open(path, "w", encoding="utf-8") as file:
        file.writelines(f"{kind} {old} {new} {version}\n" for (kind, old), (new, version) in rows)


def digest_of(path: str, table: Table, size: int) -> str:
    """What the plan depends on."""
    with open(path, "rb") as file:
        digest = hashlib.file_digest(file, "sha256")
    digest.update(repr((sorted(table), size)).encode())
    return digest.hexdigest()


# ---- all of it


def check_notes(notes: Notes, server: str, digest: str) -> None:
    """Whether the server still has what was noted: it keeps nothing on a disk."""
    if not notes.sent:
        return
    number = min(it["changeset"] for it in notes.sent.values())
    try:
        tags = Client(server).ask("GET", f"changeset/{number}")["changeset"]["tags"]
    except Refused:
        tags = {}
    if tags.get("import") != digest[:16]:
        raise Stop(f"{server} hasn't what {notes.path} notes; remove that file to begin anew")


def send_all(board: Board, links: int, make: Callable[[], Sender]) -> None:
    threads = [threading.Thread(target=make().work, daemon=True) for _ in range(min(links, len(board.left)))]
    for it in threads:
        it.start()
    for it in threads:
        before = -1
        while it.is_alive():
            it.join(SILENCE)
            if it.is_alive() and len(board.done) == before and not board.said:
                board.say(f"no upload was entered for {SILENCE} seconds: each of {len(threads)} links needs a worker of the server")
            before = len(board.done)
    if board.fault:
        raise Stop(board.fault)


def tell(operations: list[import_plan.Operation], left: Counter[str], table: Table) -> None:
    counts = Counter((it["type"], action) for action, it in operations)
    print(f"{'':10}{'created':>10}{'modified':>10}{'deleted':>10}{'in the table':>14}")
    for kind in KINDS:
        columns = "".join(f"{counts[kind, action]:10}" for action in ("create", "modify", "delete"))
        print(f"{kind + 's':10}{columns}{sum(it[0] == kind for it in table):14}")
    for why, count in left.items():
        print(f"left out: {count} {why}")


def load(it: argparse.Namespace) -> None:
    begun = time.monotonic()
    table: Table = read_table(it.ids) if it.ids else {}
    digest = digest_of(it.file, table, it.size)
    operations, left = import_plan.plan(osm_file.read(it.file), table)
    uploads = import_plan.cut(operations, it.size)
    planned = time.monotonic()
    notes = Notes(f"{it.file}.sent", digest)
    check_notes(notes, it.server, digest)
    tags = {"comment": f"import of {os.path.basename(it.file)[:200]}", "created_by": "import_osm.py", "import": digest[:16]}
    with tqdm.tqdm(total=len(operations), unit=" elements", disable=not sys.stderr.isatty()) as progress:
        board = Board(uploads, table, notes, progress)
        count = sum(len(uploads[number].operations) for number in board.left)
        send_all(board, it.links, lambda: Sender(board, it.server, it.token, tags))
    sent = time.monotonic()
    write_table(f"{it.file}.ids", table)
    tell(operations, left, table)
    seconds = sent - planned
    print(f"{count} operations in {seconds:.1f} s, {count / seconds:.0f} a second, after {planned - begun:.1f} s of reading")
    print(f"new ids: {it.file}.ids")


def main() -> int:
    parser = argparse.ArgumentParser(usage=(__doc__ or "").split("\n\n")[0].partition(": ")[2])
    parser.add_argument("--server", required=True)
    add_token(parser)
    parser.add_argument("--links", type=int, default=4)
    parser.add_argument("--size", type=int, default=2000, choices=range(1, HOLDS + 1), metavar="N")
    parser.add_argument("--ids")
    parser.add_argument("file")
    it = parser.parse_args()
    try:
        load(it)
    except (Stop, Refused, Lost, OSError, RuntimeError) as why:
        print(f"import_osm.py: {why}", file=sys.stderr)
        return 1
    return 0


if __name__ == "__main__":
    sys.exit(main())
