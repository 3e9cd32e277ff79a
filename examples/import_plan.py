"""Which operations bring a file's elements into a map, in which uploads, and the bodies of these."""

from __future__ import annotations

import itertools
from collections import Counter
from collections.abc import Iterator
from typing import Any, NamedTuple

from map_client import KINDS, Element, Key, key, references

BODY = 33_000_000  # bytes; the server reads 33,554,432
# Of an element of the file: its id and its version at the server.
Table = dict[Key, tuple[int, int]]


class Operation(NamedTuple):
    """`create`, `modify` or `delete` of an element, with the ids of the file."""

    action: str
    element: Element


class Upload(NamedTuple):
    """Operations that are accepted or refused as a whole, and the numbers of the uploads that come before."""

    operations: list[Operation]
    after: set[int]


def plan(elements: dict[Key, Element], table: Table) -> tuple[list[Operation], Counter[str]]:
    """The operations in an order in which no reference is missing, and how often something was left out, by why."""
    left: Counter[str] = Counter()
    gone = [it for it in elements if "deleted" in elements[it]]
    there = set(table).difference(gone)
    kept = trimmed(elements, set(there), left)
    left["deletions of what the table hasn't"] = sum(it not in table for it in gone)
    return [*writings(kept, there), *deletions([it for it in gone if it in table])], +left


def trimmed(elements: dict[Key, Element], there: set[Key], left: Counter[str]) -> dict[Key, Element]:
    """What the file writes, without references to what is neither in it nor there already."""
    kept = {}
    there.update(it for it in elements if it[0] == "relation" and "deleted" not in elements[it])
    for name, element in elements.items():
        if "deleted" in element:
            continue
        whole = only(element, there)
        left["references to what isn't in the file"] += len(references(element)) - len(references(whole))
        if whole["type"] == "node" and "lat7" not in whole:
            left["nodes without a place"] += 1
        elif whole["type"] == "way" and not whole["nodes"]:
            left["ways without nodes"] += 1
        else:
            kept[name] = whole
            there.add(name)
    return kept


def only(element: Element, there: set[Key]) -> Element:
    """The element with those of its references that are there."""
    if element["type"] == "way":
        return {**element, "nodes": [number for number in element["nodes"] if ("node", number) in there]}
    if element["type"] == "relation":
        return {**element, "members": [it for it in element["members"] if (it["type"], it["ref"]) in there]}
    return element


def writings(kept: dict[Key, Element], there: set[Key]) -> Iterator[Operation]:
    """Creations and changes, each behind what it lists. In a circle of relations one is made first without those
    that come later, and changed at the end."""
    made, again = set(there), []
    lists = {name: [it for it in references(kept[name]) if it in kept] for name in kept if name[0] == "relation"}
    for name in [*(it for it in kept if it[0] != "relation"), *members_first(lists)]:
        element = kept[name]
        early = only(element, made)
        is_whole = len(references(early)) == len(references(element))
        if not is_whole:
            again.append(Operation("modify", element))
        if name not in there:
            yield Operation("create", early)
        elif is_whole:
            yield Operation("modify", element)
        made.add(name)
    yield from again


def members_first(lists: dict[Key, list[Key]]) -> list[Key]:
    """The relations, each behind those that it lists, but where they list each other in a circle."""
    order: dict[Key, None] = {}
    begun: set[Key] = set()
    for first in lists:
        todo = [first]
        while todo:
            name = todo[-1]
            if name in begun:
                order.setdefault(todo.pop())
            else:
                begun.add(name)
                todo += [it for it in lists[name] if it in lists and it not in begun]
    return list(order)


def deletions(gone: list[Key]) -> Iterator[Operation]:
    """Users first. Relations may list each other, and the file needn't say so: where there are several, they are emptied."""
    relations = [number for kind, number in gone if kind == "relation"]
    if len(relations) > 1:
        for number in relations:
            yield Operation("modify", {"type": "relation", "id": number, "tags": {}, "members": []})
    for kind in reversed(KINDS):
        for name in gone:
            if name[0] == kind:
                yield Operation("delete", {"type": kind, "id": name[1]})


def cut(operations: list[Operation], size: int) -> list[Upload]:
    """Uploads of at most so many operations, and of no more bytes than a body may have. An upload waits for those
    that wrote what it names, and a deletion for all before it."""
    uploads: list[Upload] = []
    writer: dict[Key, int] = {}
    for part in parts(operations, size):
        number = len(uploads)
        named = {name for _, it in part for name in (key(it), *references(it))}
        after = {writer[name] for name in named if name in writer}
        if any(action == "delete" for action, _ in part):
            after = set(range(number))
        writer.update((key(it), number) for _, it in part)
        uploads.append(Upload(part, after))
    return uploads


def parts(operations: list[Operation], size: int) -> Iterator[list[Operation]]:
    part: list[Operation] = []
    left = BODY
    for operation in operations:
        need = most_bytes(operation.element)
        if part and (len(part) == size or need > left):
            yield part
            part, left = [], BODY
        part.append(operation)
        left -= need
    if part:
        yield part


def most_bytes(it: Element) -> int:
    """No fewer than the element has in a body: a character may have six, and an id twenty."""
    texts = sum(len(name) + len(value) for name, value in it.get("tags", {}).items())
    texts += sum(len(member["role"]) for member in it.get("members", ()))
    return 200 + 6 * texts + 10 * len(it.get("tags", ())) + 22 * len(it.get("nodes", ())) + 60 * len(it.get("members", ()))


def body(operations: list[Operation], table: Table) -> Any:
    """The osmChange of an upload. What it makes has minus its place as placeholder."""
    here: Table = {}
    written = []
    for place, (action, it) in enumerate(operations, 1):
        number, version = (-place, 0) if action == "create" else here.get(key(it)) or table[key(it)]
        here[key(it)] = number, version + 1
        known = {} if action == "create" else {"version": version}
        shown = {} if action == "delete" else content(it, here, table)
        written.append((action, {"type": it["type"], "id": number, **known, **shown}))
    blocks = itertools.groupby(written, lambda it: it[0])
    return {"osmChange": [{action: [it for _, it in some]} for action, some in blocks]}


def content(it: Element, here: Table, table: Table) -> Element:
    """What an element is at the server, with the numbers of this upload or of the table."""
    if it["type"] == "node":
        return {name: it[name] for name in ("lat7", "lon7", "tags")}
    numbers = [(here.get(name) or table[name])[0] for name in references(it)]
    if it["type"] == "way":
        return {"nodes": numbers, "tags": it["tags"]}
    members = [{**member, "ref": number} for member, number in zip(it["members"], numbers, strict=True)]
    return {"members": members, "tags": it["tags"]}
