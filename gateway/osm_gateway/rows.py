"""What the server's JSON has in its replies, as types (docs/API.md)."""

from __future__ import annotations

from collections.abc import Callable
from operator import itemgetter
from typing import Literal, NamedTuple, NotRequired, TypedDict

Kind = Literal["node", "way", "relation"]
Whole = int | str
"""A whole number, or its digits."""
KINDS: tuple[Kind, ...] = ("node", "way", "relation")
ACTIONS = ("create", "modify", "delete")
SIDES = ("minlat", "minlon", "maxlat", "maxlon")
SLICE = 1000
"""Members that are written in one piece."""


class Member(TypedDict):
    type: Kind
    ref: int
    role: str


MemberFields = tuple[Whole, str, str]
"""A member's ref, role and type."""
member_fields: Callable[[Member], MemberFields] = itemgetter("ref", "role", "type")


class Element(TypedDict):
    """A version of an element."""

    type: Kind
    id: int
    version: int
    visible: bool
    changeset: int
    timestamp: str
    uid: int
    user: str
    lat7: NotRequired[int]
    lon7: NotRequired[int]
    nodes: NotRequired[list[int]]
    members: NotRequired[list[Member]]
    tags: NotRequired[dict[str, str]]
    redaction: NotRequired[int]


class Box(TypedDict):
    minlat7: int
    minlon7: int
    maxlat7: int
    maxlon7: int


class Changeset(TypedDict):
    """The four edges are there where it has a box."""

    id: int
    open: bool
    created_at: str
    closed_at: NotRequired[str]
    changes_count: int
    uid: int
    user: str
    tags: dict[str, str]
    minlat7: NotRequired[int]
    minlon7: NotRequired[int]
    maxlat7: NotRequired[int]
    maxlon7: NotRequired[int]


class Done(TypedDict):
    """A row of a diff result."""

    type: Kind
    old_id: int
    new_id: NotRequired[int]
    new_version: NotRequired[int]


class Counts(NamedTuple):
    """What is counted of a user; None where it isn't known."""

    changesets: int | None = None
    received: tuple[int, int] = (0, 0)
    """Blocks, and those of them that hold."""
    issued: tuple[int, int] = (0, 0)


class Comment(TypedDict):
    date: str
    action: str
    text: str
    uid: NotRequired[int]
    user: NotRequired[str]


class Note(TypedDict):
    """A note without its comments, of which there may be ten thousand."""

    id: int
    lat7: int
    lon7: int
    status: str
    date_created: str
    closed_at: NotRequired[str]


def edges(it: Box | Changeset) -> dict[str, int]:
    """The edges of a box or of a changeset that has one."""
    return {side: it[f"{side}7"] for side in SIDES if f"{side}7" in it}  # type: ignore[literal-required]
