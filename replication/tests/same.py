"""What a file of OpenStreetMap has, element by element with everything, and how two files differ."""

from __future__ import annotations

from typing import Any

import osmium

Elements = dict[tuple[str, int], tuple[Any, ...]]


class Reader(osmium.SimpleHandler):
    def __init__(self) -> None:
        super().__init__()
        self.elements: Elements = {}

    def keep(self, kind: str, it: Any, *content: Any) -> None:
        if not it.deleted and it.visible:
            who = (it.version, it.changeset, str(it.timestamp), it.uid, it.user)
            self.elements[kind, it.id] = (*who, {tag.k: tag.v for tag in it.tags}, *content)

    def node(self, it: Any) -> None:
        self.keep("node", it, it.location.x, it.location.y)

    def way(self, it: Any) -> None:
        self.keep("way", it, tuple(node.ref for node in it.nodes))

    def relation(self, it: Any) -> None:
        self.keep("relation", it, tuple((member.type, member.ref, member.role) for member in it.members))


def elements(path: str) -> Elements:
    reader = Reader()
    reader.apply_file(path)
    return reader.elements


def differences(found: str, wanted: str) -> list[str]:
    """A line for each element that isn't the same, with its version, changeset, stamp, user, tags and content."""
    left, right = elements(found), elements(wanted)
    names = sorted(name for name in left.keys() | right.keys() if left.get(name) != right.get(name))
    return [f"{name}: {left.get(name)} in place of {right.get(name)}" for name in names]
