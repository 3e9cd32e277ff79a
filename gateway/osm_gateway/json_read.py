"""OSM's JSON of changes, elements and changesets, in degrees. A decimal stays a text until it is units."""

from __future__ import annotations

from collections.abc import Iterator
from itertools import groupby
from typing import Any

from .changes import Begun, Ended, Found
from .degrees import NotDecimal, units_in, units_of
from .refusals import Refused
from .rows import ACTIONS, KINDS
from .walk import ELEMENTS, OPENED, NotJson, Path, Sort, Walk
from .xml_elements import FARTHEST

LARGE = 1 << 63
LONGEST = 1 << 22
"""Characters of an element, far more than one with limits has."""
WHOLE, TEXT = frozenset({int}), frozenset({str})
NUMBERS = ("id", "changeset", "version")
TOGETHER: frozenset[Path] = ELEMENTS | {("osmChange", "*")}
"""Lists of elements, and of blocks or of elements that each say their action."""


class DecimalText(str):
    """A number with a point or an exponent, as it stands."""


def refuse(why: str) -> Refused:
    return Refused(400, f"Cannot parse the JSON: {why}")


def walk(pieces: Iterator[str]) -> Walk:
    return Walk(pieces, OPENED, LONGEST, DecimalText, together=TOGETHER)


def whole(it: Any, name: str) -> int:
    if type(it) is not int:
        raise refuse(f"{name} is not a number" if it is not None else f"{name} is missing")
    if abs(it) >= LARGE:
        raise refuse(f"{name} is too large a number")
    return it


def refs_of(rows: list[Any]) -> list[int]:
    """Numbers of elements; they are looked at one by one where one of them is none."""
    if set(map(type, rows)) == WHOLE and -LARGE < min(rows) and max(rows) < LARGE:
        return rows
    return [whole(ref, "ref") for ref in rows]


def place(it: Any, name: str) -> int:
    try:
        if type(it) is DecimalText:
            units = units_in(it)
        elif type(it) is int:
            units = units_of(str(it))
        else:
            raise NotDecimal
    except NotDecimal:
        raise refuse(f"{name} not a number" if it is not None else f"{name} missing") from None
    if not -FARTHEST <= units <= FARTHEST:
        raise Refused(400, "The node is outside this world")
    return units


def tags_of(it: Any) -> dict[str, str]:
    if not isinstance(it, dict) or not TEXT.issuperset(map(type, it.values())):
        raise refuse("tags are an object of texts")
    return it


def members_of(rows: Any) -> list[dict[str, Any]]:
    if not isinstance(rows, list) or not all([type(row) is dict and row.get("type") in KINDS for row in rows]):
        raise refuse("members are objects with a type of node, way or relation, a ref and a role")
    if not TEXT.issuperset([type(row.get("role", "")) for row in rows]):
        raise refuse("a member's role is a text")
    refs = refs_of([row.get("ref") for row in rows])
    return [{"type": row["type"], "ref": ref, "role": row.get("role", "")} for row, ref in zip(rows, refs)]


def element_of(it: Any, action: str, kind: str = "") -> dict[str, Any]:
    """An element of a change, or the one of a path that names its kind, in the server's form."""
    found = it.get("type", kind) if isinstance(it, dict) else None
    if found not in KINDS or kind not in ("", found):
        raise refuse(f"it is no element of type {kind or 'node, way or relation'}")
    row: dict[str, Any] = {"type": found}
    for name in NUMBERS:
        if name in it:
            number = it[name]
            row[name] = number if type(number) is int and -LARGE < number < LARGE else whole(number, name)
    if action == "delete":
        return row
    if found == "node":
        row["lat7"], row["lon7"] = place(it.get("lat"), "lat"), place(it.get("lon"), "lon")
    elif found == "way":
        nodes = it.get("nodes")
        row["nodes"] = refs_of(nodes) if isinstance(nodes, list) else [whole(None, "nodes")]
    else:
        row["members"] = members_of(it.get("members"))
    if "tags" in it:
        row["tags"] = tags_of(it["tags"])
    return row


# ---- whole documents


def change(pieces: Iterator[str]) -> Iterator[Found]:
    """An osmChange, as a list of blocks by action or of elements that each say their `action`."""
    try:
        yield from change_found(pieces)
    except NotJson as why:
        raise refuse(str(why)) from None


def change_found(pieces: Iterator[str]) -> Iterator[Found]:
    seen, rest, begun = False, dict[str, Any](), ""
    for sort, path, value in walk(pieces).events():
        if path[:1] != ("osmChange",):
            continue
        if len(path) == 4:
            yield [element_of(it, path[2]) for it in value]
        elif sort is Sort.ITEMS:
            yield from spoken(value)
        elif path == ("osmChange",):
            seen = seen or sort is Sort.OPENED
        elif len(path) == 2 and sort is Sort.OPENED:
            rest, begun = {}, ""
        elif len(path) == 3 and path[2] in ACTIONS and sort is not Sort.CLOSED:
            if begun or sort is not Sort.OPENED:
                raise refuse("a block has one list, create, modify or delete")
            begun = path[2]
            yield Begun(begun)
        elif len(path) == 3 and sort is Sort.VALUE:
            rest[path[2]] = value
        elif len(path) == 2:
            yield from ended(rest, begun) if sort is Sort.CLOSED else spoken([value])
    if not seen:
        raise refuse("it has no list osmChange")


def ended(rest: dict[str, Any], begun: str) -> Iterator[Found]:
    """The end of a block, or an element that says its action."""
    if begun:
        yield Ended(unused_of(rest, begun))
    else:
        yield from spoken([rest])


def unused_of(it: dict[str, Any], action: str) -> bool:
    unused = action == "delete" and it.get("if-unused", False)
    if type(unused) is not bool:
        raise refuse("if-unused is true or false")
    return unused


def action_of(it: Any) -> tuple[str, bool]:
    """Of an element that says its action, and whether it may be skipped."""
    action = it.get("action") if isinstance(it, dict) else None
    if action not in ACTIONS:
        raise refuse("a block has one list, create, modify or delete")
    return action, unused_of(it, action)


def spoken(values: list[Any]) -> Iterator[Found]:
    """Elements that each say their action, those with the same one behind each other as one block."""
    for (action, unused), rows in groupby(values, action_of):
        yield Begun(action)
        yield [element_of(it, action) for it in rows]
        yield Ended(unused)


def value_of(pieces: Iterator[str]) -> Any:
    try:
        found = [it.value for it in Walk(pieces, frozenset(), LONGEST, DecimalText).events()]
    except NotJson as why:
        raise refuse(str(why)) from None
    return found[0]


def element(pieces: Iterator[str], kind: str, action: str) -> dict[str, Any]:
    """The element of `{"elements":[ELEMENT]}`, or the element itself."""
    it = value_of(pieces)
    if isinstance(it, dict) and "elements" in it:
        rows = it["elements"]
        if not isinstance(rows, list) or len(rows) != 1:
            raise refuse("elements is a list with one element")
        it = rows[0]
    return element_of(it, action, kind)


def changeset(pieces: Iterator[str]) -> dict[str, Any]:
    """The tags of `{"changeset":{"tags":{..}}}` or of `{"tags":{..}}`."""
    it = value_of(pieces)
    if isinstance(it, dict) and isinstance(it.get("changeset"), dict):
        it = it["changeset"]
    if not isinstance(it, dict):
        raise refuse("it is no changeset")
    return {"tags": tags_of(it.get("tags", {}))}
