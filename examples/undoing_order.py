"""A plan as the operations of an upload, in an order in which each is accepted.

What an element lists is there before it, and nothing lists what is deleted. Relations that list each other in a circle are brought
back without what isn't there yet, and completed at the end; where they are deleted one of them is emptied before.
"""

from __future__ import annotations

from collections.abc import Iterator

from map_client import Element, Key, references
from undoing import Plan

Operation = tuple[str, Element]
CONTENT = ("lat7", "lon7", "nodes", "members", "tags")


def modification(target: Element, version: int, **other: object) -> Operation:
    content = {name: target[name] for name in CONTENT if name in target}
    return "modify", {"type": target["type"], "id": target["id"], "version": version, **content, **other}


def deletion(name: Key, version: int) -> Operation:
    return "delete", {"type": name[0], "id": name[1], "version": version}


def restored(plan: Plan, kind: str) -> dict[Key, Element]:
    return {name: it for name, it in plan.targets.items() if name[0] == kind and it is not None}


def deleted(plan: Plan, kind: str) -> list[Key]:
    return [name for name, it in plan.targets.items() if name[0] == kind and it is None]


def relations_back(plan: Plan) -> Iterator[Operation]:
    left = restored(plan, "relation")
    # Those that aren't there yet.
    away = {name for name in left if not plan.newest[name]["visible"]}
    completed: list[Operation] = []
    while left:
        ready = [name for name, it in left.items() if not away.intersection(references(it)) - {name}]
        for name in ready or [min(left)]:
            target, version = left.pop(name), plan.newest[name]["version"]
            if away.intersection(references(target)):
                there = [it for it in target["members"] if (it["type"], it["ref"]) not in away]
                yield modification(target, version, members=there)
                completed.append(modification(target, version + 1))
            else:
                yield modification(target, version)
            away.discard(name)
    yield from completed


def relations_gone(plan: Plan) -> Iterator[Operation]:
    left = {name: plan.newest[name] for name in deleted(plan, "relation")}
    versions = {name: it["version"] for name, it in left.items()}
    lists = {name: set(references(it)) - {name} for name, it in left.items()}
    while left:
        listed = {ref for name in left for ref in lists[name]}
        ready = [name for name in left if name not in listed]
        if not ready:
            name = min(it for it in left if lists[it])
            yield modification(left[name], versions[name], members=[])
            versions[name] += 1
            lists[name] = set()
        for name in ready:
            del left[name]
            yield deletion(name, versions[name])


def operations(plan: Plan) -> Iterator[Operation]:
    for kind in ("node", "way"):
        for name, target in restored(plan, kind).items():
            yield modification(target, plan.newest[name]["version"])
    yield from relations_back(plan)
    yield from relations_gone(plan)
    for kind in ("way", "node"):
        for name in deleted(plan, kind):
            yield deletion(name, plan.newest[name]["version"])
