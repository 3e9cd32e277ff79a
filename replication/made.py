"""What the pieces of a feed made: which versions of which elements."""

from __future__ import annotations

import json
from collections.abc import Iterator
from dataclasses import dataclass, field
from typing import Any

from from_gateway import KINDS

COUNTED = (*KINDS, "changeset")
DAY = 86_400  # seconds; no changeset is open for longer


@dataclass(frozen=True, slots=True)
class Version:
    kind: str
    id: int
    number: int

    @property
    def path(self) -> str:
        """Where a moderator reads it, redacted or not."""
        return f"{self.kind}/{self.id}/{self.number}?show_redactions=true"

    @property
    def place(self) -> tuple[int, int, int]:
        """In a file: by kind, id and number."""
        return KINDS.index(self.kind), self.id, self.number


@dataclass
class Counts:
    """How many elements of each kind and changesets there ever were: new ones are numbered in turn."""

    ids: dict[str, int] = field(default_factory=lambda: dict.fromkeys(COUNTED, 0))

    def next(self, kind: str) -> int:
        self.ids[kind] += 1
        return self.ids[kind]


@dataclass(frozen=True, slots=True)
class Made:
    """The versions that a piece made, and those that it made unless a deletion was skipped."""

    sure: tuple[Version, ...]
    perhaps: tuple[Version, ...]


@dataclass(frozen=True, slots=True)
class Piece:
    """A piece as its text tells it: the stamp in seconds since 1970, and the command (docs/JOURNAL.md)."""

    at: int
    command: dict[str, Any]


def read_piece(text: bytes) -> Piece:
    entry = json.loads(text)["entry"]
    return Piece(int(entry["at"]), entry["command"])


def operations(piece: Piece) -> Iterator[tuple[str, dict[str, Any], bool]]:
    """Each operation of an upload in its order, with whether it is skipped where it can't be."""
    for block in piece.command.get("osmChange", ()):
        skips = bool(block.get("if-unused"))
        for action in ("create", "modify", "delete"):
            for element in block.get(action, ()):
                yield action, element, skips


def made_by(piece: Piece, counts: Counts) -> Made:
    """The versions of a piece. It names new elements by their placeholders, so their ids are counted from the first piece on."""
    named: dict[tuple[str, int], int] = {}
    sure: dict[Version, None] = {}
    perhaps: dict[Version, None] = {}
    for action, element, skips in operations(piece):
        kind, place = element["type"], element.get("id", 0)
        if action == "create":
            named[kind, place] = counts.next(kind)
            sure[Version(kind, named[kind, place], 1)] = None
            continue
        version = Version(kind, named[kind, place] if place < 0 else place, element["version"] + 1)
        (perhaps if skips else sure)[version] = None
    return Made(tuple(sure), tuple(it for it in perhaps if it not in sure))


@dataclass
class Changesets:
    """Which changesets pieces made or changed, and which may be open. They close by themselves too, of which no piece tells."""

    open: set[int] = field(default_factory=set)
    changed: set[int] = field(default_factory=set)
    born: dict[int, int] = field(default_factory=dict)

    def add(self, piece: Piece, counts: Counts) -> None:
        if piece.command["act"] == "create_changeset":
            number = counts.next("changeset")
            self.open.add(number)
            self.born[number] = piece.at
        else:
            number = piece.command.get("changeset", 0)
        if number:
            self.changed.add(number)

    def forget(self, moment: int) -> None:
        """What was told before that moment."""
        self.open = {it for it in self.open if self.born[it] > moment - DAY}
        self.changed.clear()
        self.born.clear()

    def to_look_at(self) -> list[int]:
        return sorted(self.open | self.changed)

    def told(self, rows: list[dict[str, Any]]) -> list[dict[str, Any]]:
        """Which of their rows are to be told: those that were changed, and those that have closed meanwhile."""
        news = [it for it in rows if it["id"] in self.changed or not it["open"]]
        self.open = {it["id"] for it in rows if it["open"]}
        self.changed.clear()
        self.born.clear()
        return news
