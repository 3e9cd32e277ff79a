"""Edits of every kind, sent to a server: what a follower has to bring out right."""

from __future__ import annotations

from typing import Any

from map_client import Client

Element = dict[str, Any]
Block = dict[str, Any]


def node(number: int, place: int, **tags: str) -> Element:
    return {"type": "node", "id": number, "lat7": 481500000 + place, "lon7": 115500000 - place, "tags": tags}


def way(number: int, nodes: list[int], **tags: str) -> Element:
    return {"type": "way", "id": number, "nodes": nodes, "tags": tags}


def relation(number: int, members: list[tuple[str, int, str]], **tags: str) -> Element:
    listed = [{"type": kind, "ref": ref, "role": role} for kind, ref, role in members]
    return {"type": "relation", "id": number, "members": listed, "tags": tags}


class Session:
    """A mapper with a changeset, and a moderator."""

    def __init__(self, server: str) -> None:
        self.mapper, self.moderator = Client(server, "alicetoken"), Client(server, "bobtoken")
        self.changeset = self.mapper.ask("PUT", "changeset/create", {"tags": {"comment": "edits of every kind"}})

    def upload(self, *blocks: Block) -> list[dict[str, Any]]:
        rows: list[dict[str, Any]] = self.mapper.ask("POST", f"changeset/{self.changeset}/upload", {"osmChange": list(blocks)})[
            "diffResult"
        ]
        return rows

    def create(self, *elements: Element) -> list[int]:
        """The ids that they were given."""
        return [row["new_id"] for row in self.upload({"create": list(elements)})]

    def modify(self, version: int, element: Element) -> None:
        self.upload({"modify": [{**element, "version": version}]})

    def delete(self, kind: str, number: int, version: int) -> None:
        self.upload(deletion((kind, number, version)))

    def number(self) -> int:
        """How many pieces the feed has."""
        return int(self.mapper.ask("GET", "replication/state")["sequenceNumber"])


def deletion(*elements: tuple[str, int, int], skips: bool = False) -> Block:
    block: Block = {"delete": [{"type": kind, "id": number, "version": version} for kind, number, version in elements]}
    return {**block, "if-unused": True} if skips else block


def skipped(rows: list[dict[str, Any]]) -> list[bool]:
    """Of each operation of an upload of deletions whether it was skipped."""
    return ["new_id" in row for row in rows]


def first_edits(session: Session) -> None:
    """A small map: a path with a bench beside it, a site, and texts that XML has to write with care."""
    session.upload(
        {"create": [node(-1, 1, a="1"), node(-2, 2, amenity="bench"), node(-3, 3), node(-4, 4, natural="tree")]},
        {"create": [way(-1, [-1, -2, -3], highway="path"), way(-2, [-1, -2, -3, -1], building="yes")]},
        {
            "create": [
                relation(-1, [("way", -1, "outer"), ("node", -2, "")], type="site"),
                relation(-2, [("relation", -1, "part")], type="collection"),
            ]
        },
        {"create": [node(-5, 5, name='"Zum & <Ochsen>"\n\tzwei\r \u00df \U0001f333', note=" two  blanks ")]},
    )


def several_versions(session: Session) -> int:
    """More than one version of an element within one upload, and a hundred of one node; answers that node."""
    (number,) = session.create(node(-1, 10, v="1"))
    session.upload(*({"modify": [{**node(number, 10 + it, v=str(it + 1)), "version": it}]} for it in range(1, 51)))
    for it in range(51, 100):
        session.modify(it, node(number, 10 + it, v=str(it + 1)))
    session.upload(
        {"create": [node(-1, 30)]}, {"modify": [{**node(-1, 31), "version": 1}]}, {"delete": [{"type": "node", "id": -1, "version": 2}]}
    )
    session.upload({"create": [node(-1, 32, kept="yes")]}, {"modify": [{**node(-1, 33, kept="still"), "version": 1}]})
    return number


def brought_back(session: Session) -> None:
    number, other = session.create(node(-1, 40, natural="tree"), node(-2, 41))
    session.delete("node", number, 1)
    session.modify(2, node(number, 42, natural="tree", back="yes"))
    (path,) = session.create(way(-1, [number, other], highway="path"))
    session.delete("way", path, 1)
    session.modify(2, way(path, [other, number], highway="footway"))
    session.delete("way", path, 3)
    session.delete("node", other, 1)


def unless_used(session: Session) -> None:
    """Deletions that are skipped where the element is used or gone already, several in one second, and some that are done."""
    used, free, gone, other = session.create(node(-1, 50), node(-2, 51), node(-3, 52), node(-4, 53))
    (path,) = session.create(way(-1, [used, other], highway="path"))
    session.delete("node", gone, 1)
    nodes = [("node", it, 1) for it in (used, free, gone)]
    assert skipped(session.upload(deletion(*nodes, skips=True))) == [True, False, True]
    # The same deletion is skipped, then done: by one upload, in which the way lets go of the node.
    freed = {"modify": [{**way(path, [other], highway="path"), "version": 1}]}
    rows = session.upload(deletion(("node", used, 1), skips=True), freed, deletion(("node", used, 1), skips=True))
    assert "new_id" in rows[0] and "new_id" not in rows[2]
    # A skipped deletion of a version that the same upload then replaces otherwise.
    rows = session.upload(deletion(("node", other, 1), skips=True), {"modify": [{**node(other, 54, still="used"), "version": 1}]})
    assert "new_version" in rows[0] and rows[1]["new_version"] == 2
    assert skipped(session.upload(deletion(("node", other, 2), skips=True))) == [True]
    # Of what is gone any version may be named.
    gone_now = (("way", path, 2), ("node", other, 2), ("node", other, 9))
    assert skipped(session.upload(deletion(*gone_now, skips=True))) == [False, False, True]


def at_once(session: Session) -> None:
    """One upload of which one deletion is skipped and one is done, both of elements that it made itself."""
    rows = session.upload(
        {"create": [node(-1, 55), node(-2, 56), way(-1, [-1], highway="path")]},
        deletion(("node", -1, 1), ("node", -2, 1), skips=True),
    )
    assert skipped(rows[3:]) == [True, False]


def single_calls(session: Session) -> None:
    ask, more = session.mapper.ask, {"changeset": session.changeset}
    number = ask("PUT", "node/create", {**node(-1, 60, by="itself"), **more})
    ask("PUT", f"node/{number}", {**node(number, 61, by="itself", twice="yes"), **more, "version": 1})
    path = ask("PUT", "way/create", {**way(-1, [number], barrier="gate"), **more})
    ask("DELETE", f"way/{path}", {**more, "version": 1})


def redacted(session: Session, redaction: int) -> int:
    """A version that is hidden within its interval; answers its node."""
    (number,) = session.create(node(-1, 70, phone="private"))
    session.modify(1, node(number, 70))
    session.moderator.ask("POST", f"node/{number}/1/redact?redaction={redaction}")
    return int(number)


def with_what_was_there(session: Session) -> None:
    """Changes of the small map: moved, listed otherwise, and deleted with all that lists it."""
    session.modify(1, node(1, 101, a="2"))
    session.upload(
        deletion(("relation", 2, 1), ("relation", 1, 1)),
        {"modify": [{**way(1, [3, 1], highway="steps"), "version": 1}]},
        deletion(("way", 2, 1), ("node", 2, 1)),
    )
    session.modify(2, relation(1, [("way", 1, ""), ("node", 4, "tree")], type="site", again="yes"))
