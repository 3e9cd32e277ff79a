"""People who edit a map whose server may end at any moment, with what each of them was told."""

from __future__ import annotations

import collections
import random
import threading
from typing import Any, NamedTuple

import serving
from serving import Link

Element = dict[str, Any]
Key = tuple[str, int]
Todo = list[tuple[str, Element]]  # actions, each with an element as it is asked for
SAMPLE = 200  # histories of an editor that are read in a round, where no other number is told


class Command(NamedTuple):
    """A change that was sent: `create` of a changeset with these tags, an `upload` to one, or its `close`."""

    kind: str
    changeset: int = 0
    tags: dict[str, str] = {}
    todo: Todo = []

    def request(self) -> tuple[str, str, Any]:
        if self.kind == "create":
            return "PUT", "changeset/create", {"tags": self.tags}
        body = {"osmChange": [{action: [it]} for action, it in self.todo]} if self.kind == "upload" else None
        return "POST" if body else "PUT", f"changeset/{self.changeset}/{self.kind}", body


class Changeset:
    """What was accepted of a changeset: the versions that its uploads made, in their order."""

    def __init__(self, tags: dict[str, str]) -> None:
        self.tags, self.is_open = tags, True
        self.made: list[Element] = []


def key(element: Element) -> Key:
    return element["type"], element["id"]


def same(asked: Element, stands: Element) -> bool:
    return all(stands.get(name) == value for name, value in asked.items())


def download_of(link: Link, changeset: int) -> list[Element]:
    reply = link.ask("GET", f"changeset/{changeset}/download")
    blocks = reply.read()["osmChange"] if reply.status == 200 else []
    return [element for block in blocks for (element,) in block.values()]


class Editor:
    """A user who edits on one link, alone in its changesets and at its elements."""

    def __init__(self, user: int, seed: int) -> None:
        self.user, self.draw = user, random.Random(seed)
        self.changesets: dict[int, Changeset] = {}
        self.versions: dict[Key, list[Element]] = {}
        self.ways: list[Key] = []
        self.visible: collections.Counter[str] = collections.Counter()
        self.changeset = self.turn = self.entries = 0
        self.sent: Command | None = None  # its reply hasn't come
        self.touched: set[int] = set()
        self.changed: set[Key] = set()
        self.faults: list[str] = []

    # ---- what it asks for

    def work(self, port: int, ends: threading.Event) -> None:
        """Edits until it is told to end, or the link is lost."""
        self.link = Link(port, f"token{self.user}")
        try:
            while not ends.is_set():
                self.send(self.next())
        except (OSError, serving.Lost):
            pass
        finally:
            self.link.close()

    def next(self) -> Command:
        self.turn += 1
        if not self.changeset:
            return Command("create", tags=self.tags())
        if self.draw.random() < 0.05:
            return Command("close", self.changeset)
        edits = (self.creation, self.change, self.removal) if self.ways else (self.creation,)
        return Command("upload", self.changeset, todo=self.draw.choices(edits, (4, 5, 1)[: len(edits)])[0]())

    def send(self, command: Command) -> None:
        """One that is refused ends the link: it isn't known then whether it is kept."""
        self.sent = command
        self.answered(command, self.link.ask(*command.request()))

    def answered(self, command: Command, reply: serving.Reply) -> None:
        """Learns what a reply tells of a change."""
        if reply.status != 200:
            self.faults.append(f"{command.kind} by user {self.user}: {reply.status} {reply.body[:200]!r}")
            raise serving.Lost("refused")
        self.sent = None
        if command.kind == "create":
            self.opened(int(reply.body), command.tags)
        elif command.kind == "close":
            self.closed(command.changeset)
        else:
            rows = reply.read()["diffResult"]
            self.uploaded(command, [(row.get("new_id", row["old_id"]), row.get("new_version", 0)) for row in rows])

    def tags(self) -> dict[str, str]:
        return {"by": f"user{self.user}", "turn": str(self.turn)}

    def node(self, number: int, version: int = 0) -> Element:
        place = {"lat7": self.draw.randrange(-(10**8), 10**8), "lon7": self.draw.randrange(-(10**8), 10**8)}
        return {"type": "node", "id": number, **({"version": version} if version else {}), **place, "tags": self.tags()}

    def creation(self) -> Todo:
        """Nodes, and a way over them."""
        ids = [-i for i in range(1, self.draw.randint(2, 11))]
        way = {"type": "way", "id": -1, "nodes": ids, "tags": self.tags()}
        return [("create", it) for it in [*map(self.node, ids), way]]

    def change(self) -> Todo:
        """A node moved, and its way turned round."""
        way = self.versions[self.draw.choice(self.ways)][-1]
        number = self.draw.choice(way["nodes"])
        turned = {"type": "way", "id": way["id"], "version": way["version"], "nodes": way["nodes"][::-1], "tags": self.tags()}
        return [("modify", self.node(number, len(self.versions["node", number]))), ("modify", turned)]

    def removal(self) -> Todo:
        """A way and its nodes, which no other way has."""
        way = self.versions[self.draw.choice(self.ways)][-1]
        names = [key(way), *(("node", it) for it in way["nodes"])]
        return [("delete", {"type": kind, "id": it, "version": len(self.versions[kind, it])}) for kind, it in names]

    # ---- what it was told

    def opened(self, number: int, tags: dict[str, str]) -> None:
        self.entries += 1
        self.changesets[number] = Changeset(tags)
        self.changeset = number
        self.touched.add(number)

    def closed(self, number: int) -> None:
        self.entries += 1
        self.changesets[number].is_open = False
        self.changeset = 0
        self.touched.add(number)

    def uploaded(self, command: Command, named: list[tuple[int, int]]) -> None:
        """The upload is accepted, with these ids and versions; 0 is that of a deletion whose version isn't told."""
        self.entries += 1
        self.touched.add(command.changeset)
        ids: dict[Key, int] = {}
        for (action, asked), (number, version) in zip(command.todo, named, strict=True):
            ids[key(asked)] = number
            owner = {"changeset": command.changeset, "uid": self.user}
            new = {**asked, "id": number, "version": version or asked["version"] + 1, "visible": action != "delete", **owner}
            if "nodes" in asked:
                new["nodes"] = [ids.get(("node", it), it) for it in asked["nodes"]]
            self.changesets[command.changeset].made.append(new)
            self.learn(action, new)

    def learn(self, action: str, new: Element) -> None:
        name = key(new)
        self.versions.setdefault(name, []).append(new)
        self.changed.add(name)
        self.visible[new["type"]] += {"create": 1, "modify": 0, "delete": -1}[action]
        if new["type"] == "way" and action == "create":
            self.ways.append(name)
        if new["type"] == "way" and action == "delete":
            self.ways.remove(name)

    # ---- what stands there

    def settle(self, link: Link) -> None:
        """Looks whether the change is there whose reply was cut off; then it counts as accepted."""
        command, self.sent = self.sent, None
        if command is None:
            return
        if command.kind == "create":
            rows = link.ask("GET", f"changesets?user={self.user}").read()["changesets"]
            for row in rows:
                if row["tags"] == command.tags:
                    self.opened(row["id"], command.tags)
        elif command.kind == "close":
            if not link.ask("GET", f"changeset/{command.changeset}").read()["changeset"]["open"]:
                self.closed(command.changeset)
        else:
            rest = download_of(link, command.changeset)[len(self.changesets[command.changeset].made) :]
            if len(rest) == len(command.todo):
                self.uploaded(command, [(it["id"], it["version"]) for it in rest])

    def check(self, link: Link, histories: int = SAMPLE) -> None:
        """Holds what was changed since the last time against what the server has, so many elements by their histories too."""
        for number in sorted(self.touched):
            self.check_changeset(link, number, self.changesets[number])
        for name in self.draw.sample(sorted(self.changed), min(histories, len(self.changed))):
            self.check_history(link, name)
        self.touched, self.changed = set(), set()

    def check_changeset(self, link: Link, number: int, known: Changeset) -> None:
        """Its uploads each once, whole and in order, and nothing besides."""
        reply = link.ask("GET", f"changeset/{number}")
        if reply.status != 200:
            self.faults.append(f"changeset {number} of user {self.user} is lost: {reply.body[:200]!r}")
            return
        row, found = reply.read()["changeset"], download_of(link, number)
        wanted = {"tags": known.tags, "open": known.is_open, "uid": self.user, "changes_count": len(known.made)}
        if not same(wanted, row):
            self.faults.append(f"changeset {number} is {row} and not {wanted}")
        if len(found) != len(known.made) or not all(map(same, known.made, found)):
            self.faults.append(f"changeset {number}: the {len(found)} versions there aren't the {len(known.made)} accepted ones")

    def check_history(self, link: Link, name: Key) -> None:
        known, reply = self.versions[name], link.ask("GET", "%s/%d/history" % name)
        found = reply.read()["elements"] if reply.status == 200 else []
        if len(found) != len(known) or not all(map(same, known, found)):
            self.faults.append(f"{name}: the {len(found)} versions there aren't the {len(known)} accepted ones")


class Reader:
    """Somebody who reads what the others make, and notes each version that a reply tells of."""

    def __init__(self, seed: int) -> None:
        self.draw = random.Random(seed)
        self.newest = 1
        self.seen: dict[Key, int] = {}

    def work(self, port: int, ends: threading.Event) -> None:
        link = Link(port)
        try:
            while not ends.is_set():
                self.read(link)
        except (OSError, serving.Lost):
            pass
        finally:
            link.close()

    def read(self, link: Link) -> None:
        number = self.draw.randint(max(1, self.newest - 40), self.newest + 20)
        reply = link.ask("GET", f"node/{number}/history")
        if reply.status == 200:
            self.newest = max(self.newest, number)
            self.seen["node", number] = max(self.seen.get(("node", number), 0), len(reply.read()["elements"]))

    def lacks(self, editors: list[Editor]) -> list[str]:
        """What it saw and nobody made: it was told of and isn't kept."""
        made = {name: len(known) for editor in editors for name, known in editor.versions.items()}
        return [f"{name} was seen in version {v}, and has {made.get(name, 0)}" for name, v in self.seen.items() if made.get(name, 0) < v]
