"""The server's refusals in the words that OSM's server has for them, since its clients read these."""

from __future__ import annotations

import json
import re
import time
from array import array
from collections.abc import Callable
from dataclasses import dataclass, field
from typing import Any

from .times import utc


class Refused(Exception):
    """A reply with this status and text, in place of what was asked for."""

    def __init__(self, status: int, text: str, said: dict[str, Any] | None = None) -> None:
        super().__init__(f"{status} {text}")
        self.status, self.text, self.said = status, text, said or {}
        """`said` is the server's own refusal, where it is one."""


KIND_NAMES = ("node", "way", "relation")
KIND_PLACES = {name: place for place, name in enumerate(KIND_NAMES)}


@dataclass
class Operations:
    """Kinds and ids of the operations of an upload in their order, since a refusal names one by its place. Ten bytes each."""

    kinds: bytearray = field(default_factory=bytearray)
    ids: array[int] = field(default_factory=lambda: array("q"))
    skipped: bytearray = field(default_factory=bytearray)
    """1 for a deletion that is skipped where it can't be done."""
    guards: int = 0
    """Changes of versions that were there before: each is refused where it has been made already, and with it the upload."""

    def add(self, rows: list[dict[str, Any]]) -> None:
        """Elements in the server's form."""
        self.kinds += bytes([KIND_PLACES[row["type"]] for row in rows])
        self.ids.extend([row.get("id", 0) for row in rows])
        self.skipped += bytes(len(rows))

    def end_block(self, start: int, action: str, if_unused: bool) -> None:
        """The operations from that number on, counted from 0, are of a block."""
        if if_unused:
            self.skipped[start:] = b"\1" * (len(self.ids) - start)
        elif action != "create":
            self.guards += sum(number > 0 for number in self.ids[start:])

    def may_skip(self, place: int) -> bool:
        """Of the operation with that number, from 1 on."""
        return 0 < place <= len(self.skipped) and self.skipped[place - 1] == 1

    def can_come_again(self) -> bool:
        """Whether the upload changes nothing where it is sent a second time: it is refused, or all of it is skipped."""
        return self.guards > 0 or all(self.skipped)

    def __getitem__(self, place: int) -> tuple[str, int]:
        """The operation with that number from 1 on; a node 0 where there is none."""
        if 0 < place <= len(self.ids):
            return KIND_NAMES[self.kinds[place - 1]], self.ids[place - 1]
        return "node", 0


@dataclass
class Asked:
    """What a refusal is of: the changeset of the path, and the operations of the body."""

    changeset: int = 0
    operations: Operations = field(default_factory=Operations)


def now() -> str:
    return time.strftime("%Y-%m-%d %H:%M:%S UTC", time.gmtime())


SMALLER = "Either request a smaller area, or use planet.osm"
WORLD = "is outside this world"


def missing(it: dict[str, Any], asked: Asked) -> str:
    owner, number = asked.operations[it.get("op", 0)]
    if owner == "way":
        return (
            f"Precondition failed: Way {number} requires the nodes with id in ({it['id']}), "
            "which either do not exist, or are not visible."
        )
    return f"Precondition failed: Relation with id {number} cannot be saved due to {it['type'].capitalize()} with id {it['id']}"


def ways_nodes(text: str, ids: list[int]) -> str:
    """The same of a way with all nodes that it wants for."""
    return re.sub(r"\([0-9]+\)", f"({','.join(map(str, ids))})", text, count=1)


def used(it: dict[str, Any], _: Asked) -> str:
    if it["type"] == "relation":
        return f"Precondition failed: The relation {it['id']} is used in relation {it['user_id']}."
    return f"Precondition failed: {it['type'].capitalize()} {it['id']} is still used by {it['user_type']}s {it['user_id']}."


def version(it: dict[str, Any], _: Asked) -> str:
    return f"Version mismatch: Provided {it['provided']}, server had: {it['found']} of {it['type'].capitalize()} {it['id']}"


def of_operation(what: str) -> Callable[[dict[str, Any], Asked], str]:
    """A text in which `%s` is the kind and the id of the operation."""

    def text(it: dict[str, Any], asked: Asked) -> str:
        kind, number = asked.operations[it.get("op", 0)]
        return what % f"{kind} {number}"

    return text


TEXTS: dict[str, Callable[[dict[str, Any], Asked], str]] = {
    "version": version,
    "missing": missing,
    "used": used,
    "gone": lambda it, _: f"The {it['type']} with the id {it['id']} has already been deleted",
    "closed": lambda it, _: f"The changeset {it['changeset']} was closed at {utc(it['closed_at'])}",
    # OSM's server says so too; its clients then open another changeset.
    "full": lambda it, _: f"The changeset {it['changeset']} was closed at {now()}",
    "owner": lambda it, _: "The user doesn't own that changeset",
    "other_changeset": lambda it, asked: f"Changeset mismatch: Provided {it['named']} but only {asked.changeset} is allowed",
    "box_too_large": lambda it, _: "Changeset bounding box size limit exceeded.",
    "map_area": lambda it, _: f"The maximum bbox size is 0.25, and your request was too large. {SMALLER}",
    "map_nodes": lambda it, _: f"You requested too many nodes (limit is {it['limit']}). {SMALLER}",
    "notes_area": lambda it, _: "The maximum bbox size is 25, and your request was too large. Either request a smaller area",
    "redact_current": lambda it, _: "Cannot redact current version of element, only historical versions may be redacted.",
    "redacted": lambda it, _: f"Version {it['version']} of the {it['type']} {it['id']} is redacted",
    "note_closed": lambda it, _: f"The note {it['id']} was closed at {utc(it['closed_at'])}",
    "note_full": lambda it, _: f"The note {it['id']} has {it['limit']} comments and takes no more",
    "note_open": lambda it, _: f"The note {it['id']} is already open",
    "no_user": lambda it, _: "Couldn't authenticate you",
    "role": lambda it, _: "Only a moderator may do this",
    "no_element": lambda it, _: f"There is no {it['type']} with the id {it['id']}",
    "no_such_version": lambda it, _: f"There is no version {it['version']} of the {it['type']} {it['id']}",
    "no_changeset": lambda it, _: f"There is no changeset with the id {it['id']}",
    "no_redaction": lambda it, _: f"There is no redaction with the id {it['id']}",
    "no_note": lambda it, _: f"There is no note with the id {it['id']}",
    "no_piece": lambda it, _: f"There is no piece {it['number']}, the last one is {it['last']}",
    "read_only": lambda it, _: "This is a mirror, and changes are made at its server",
    "memory": lambda it, _: "The server has no memory for this, and nothing was done",
    "body_long": lambda it, _: "The document is too long",
    "head_long": lambda it, _: "The address is too long",
    "not_negative": of_operation("The %s is to be created, and its id isn't negative"),
    "double_placeholder": of_operation("Placeholder IDs must be unique for created elements: %s"),
    "unknown_placeholder": of_operation("Placeholder not found for reference or id: %s"),
    "no_version": of_operation("Version is required when updating: %s"),
    "tag_key": of_operation("Key has less than one or more than 255 unicode characters: %s"),
    "tag_value": of_operation("Value has more than 255 unicode characters: %s"),
    "role_long": of_operation("Relation Role has more than 255 unicode characters: %s"),
    "way_empty": of_operation("Precondition failed: the %s must have at least one node"),
    "way_long": of_operation("You tried to add too many nodes to the %s, only 2000 are allowed"),
    "relation_long": of_operation("You tried to add too many members to the %s, only 32000 are allowed"),
    "position": of_operation(f"The %s {WORLD}"),
    "shape": of_operation("Cannot parse the %s: it isn't of the form of an element, or a number isn't one"),
    "bad_parameter": lambda it, _: f"The parameter {it['name']} is required, and its value can't be read",
    "bad_number": lambda it, _: "A number in the path can't be read",
}


def refusal(status: int, body: bytes, asked: Asked) -> Refused:
    """What to answer where the server refused with that status and body; an error without a text is shown as it stands."""
    try:
        it = json.loads(body)
        error = str(it["error"])
    except (ValueError, KeyError, TypeError):
        # Of something between the gateway and the server, whose pages may name addresses.
        return Refused(status, f"The server's answer has the status {status}, and says nothing that can be read")
    try:
        return Refused(status, TEXTS[error](it, asked), it)
    except (KeyError, TypeError):
        return Refused(status, body[:1000].decode("utf-8", "replace"), it)
