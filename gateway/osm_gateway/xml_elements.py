"""An element of OSM's XML, put together from its tags as they come, in the form that the server reads."""

from __future__ import annotations

from dataclasses import dataclass, field
from typing import Any

from .degrees import NotDecimal, units_of
from .refusals import Refused
from .rows import KINDS

FARTHEST = 10**12
"""Units past which a position is told as one outside, without asking the server."""
Attributes = dict[str, str]


def whole_number(text: str) -> int | None:
    digits = text[1:] if text[:1] in ("-", "+") else text
    if not (digits.isascii() and digits.isdigit() and len(digits) <= 19):
        return None
    number = int(text)
    return number if abs(number) < 1 << 63 else None


@dataclass
class Reading:
    """An element whose end hasn't come yet."""

    kind: str
    attributes: Attributes
    action: str
    row: dict[str, Any]
    tags: dict[str, str] = field(default_factory=dict)
    nodes: list[int] | None = None
    """Those of a way, which are in its row too."""

    def bad(self, why: str) -> Refused:
        """What OSM says of an element that it can't read."""
        shown = " ".join([self.kind, *(f'{name}="{value[:60]}"' for name, value in self.attributes.items())])
        return Refused(400, f"Cannot parse valid {self.kind} from xml string <{shown[:400]}>. {why}")

    def number(self, attributes: Attributes, name: str, missing: str) -> int:
        text = attributes.get(name)
        if text is None:
            raise self.bad(missing)
        digits = text[1:] if text[:1] == "-" else text
        if len(digits) < 19 and digits.isascii() and digits.isdigit():
            return int(text)
        number = whole_number(text)
        if number is None:
            raise self.bad(f"{name} is not a number: {text[:100]}")
        return number

    def place(self, attributes: Attributes, name: str) -> int:
        text = attributes.get(name)
        if text is None:
            raise self.bad(f"{name} missing")
        try:
            units = units_of(text)
        except NotDecimal:
            raise self.bad(f"{name} not a number") from None
        if abs(units) > FARTHEST:
            raise Refused(400, f"The {self.kind} is outside this world")
        return units

    def tag(self, attributes: Attributes) -> None:
        key, value = attributes.get("k"), attributes.get("v")
        if key is None or value is None:
            raise self.bad(f"tag is missing {'key' if key is None else 'value'}")
        if key in self.tags:
            raise Refused(400, f"Element {self.kind}/{self.row.get('id', 0)} has duplicate tags with key {key}")
        self.tags[key] = value

    def child(self, name: str, attributes: Attributes) -> None:
        if name == "nd":
            if self.nodes is not None:
                self.nodes.append(self.number(attributes, "ref", "nd is missing ref"))
        elif name == "tag":
            self.tag(attributes)
        elif name == "member" and "members" in self.row:
            self.row["members"].append(self.member(attributes))

    def member(self, attributes: Attributes) -> dict[str, Any]:
        kind = attributes.get("type", "").lower()
        if kind not in KINDS:
            raise self.bad(f"The {kind} is not allowed only, {list(KINDS)} allowed")
        return {"type": kind, "ref": self.number(attributes, "ref", "member is missing ref"), "role": attributes.get("role", "")}

    def whole(self) -> dict[str, Any]:
        if self.action != "delete":
            self.row["tags"] = self.tags
        return self.row


def start_of(kind: str, attributes: Attributes, action: str, alone: bool) -> Reading:
    """An element of a change, or one that stands alone: what is created then has no id yet."""
    it = Reading(kind, attributes, action, {"type": kind})
    if not (alone and action == "create"):
        it.row["id"] = it.number(attributes, "id", "ID is required when updating." if action != "create" else "id is missing")
    it.row["changeset"] = it.number(attributes, "changeset", "Changeset id is missing")
    if action != "create":
        it.row["version"] = it.number(attributes, "version", "Version is required when updating")
    if action == "delete":
        return it
    if kind == "node":
        it.row["lat7"], it.row["lon7"] = it.place(attributes, "lat"), it.place(attributes, "lon")
    elif kind == "way":
        it.row["nodes"] = it.nodes = []
    else:
        it.row["members"] = []
    return it
