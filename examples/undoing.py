"""What has to be done to undo a changeset, and what somebody's later changes stand against."""

from __future__ import annotations

from collections.abc import Iterable
from dataclasses import dataclass, field

from map_client import KINDS, Client, Element, Key, Refused, key, references

MANY = 500  # elements that are read at once


@dataclass
class Plan:
    """For each element that is to be changed its newest version, and the content that it gets; none where it is to be deleted."""

    newest: dict[Key, Element] = field(default_factory=dict)
    targets: dict[Key, Element | None] = field(default_factory=dict)
    conflicts: dict[Key, str] = field(default_factory=dict)
    same: int = 0
    hidden: int = 0

    def skip(self, name: Key, why: str) -> None:
        self.targets.pop(name, None)
        self.conflicts[name] = why


def content(element: Element | None) -> object:
    """What two versions are compared by; None of a deleted one."""
    if element is None or not element["visible"]:
        return None
    return [element.get(name) for name in ("lat7", "lon7", "nodes", "members", "tags")]


def read_newest(client: Client, names: Iterable[Key]) -> dict[Key, Element]:
    """The newest versions, those of deletions too."""
    found: dict[Key, Element] = {}
    for kind in KINDS:
        ids = sorted({number for its_kind, number in names if its_kind == kind})
        for start in range(0, len(ids), MANY):
            wanted = ",".join(map(str, ids[start : start + MANY]))
            found.update({key(it): it for it in client.ask("GET", f"{kind}s?{kind}s={wanted}")["elements"]})
    return found


def versions_of(client: Client, changeset: int) -> dict[Key, list[int]]:
    """Of each element the versions that the changeset made and that aren't redacted."""
    made: dict[Key, list[int]] = {}
    for block in client.ask("GET", f"changeset/{changeset}/download")["osmChange"]:
        for elements in block.values():
            for it in elements:
                made.setdefault(key(it), []).append(it["version"])
    return made


def add_target(client: Client, plan: Plan, name: Key, made: list[int]) -> None:
    """What an element is to become, where nobody has changed it since."""
    newest, (kind, number) = plan.newest[name], name
    if newest["version"] != made[-1]:
        plan.skip(name, f"of which version {newest['version']} by {newest['user']} came later")
        return
    if made != list(range(made[0], made[-1] + 1)):
        plan.skip(name, f"which somebody else changed between versions {made[0]} and {made[-1]}, or a version there is redacted")
        return
    before: Element | None = None
    if made[0] > 1:
        try:
            before = client.ask("GET", f"{kind}/{number}/{made[0] - 1}")["elements"][0]
        except Refused as why:
            if why.error != "redacted":
                raise
            plan.skip(name, f"of which version {made[0] - 1} is redacted")
            return
    if content(before) == content(newest):
        plan.same += 1
    else:
        plan.targets[name] = before if before is not None and before["visible"] else None


class Links:
    """What elements that aren't in the plan are, and who lists an element: each read once."""

    def __init__(self, client: Client, plan: Plan) -> None:
        self.plan = plan
        wanted = {ref for target in plan.targets.values() if target is not None for ref in references(target)}
        self.visible = {name: it["visible"] for name, it in {**read_newest(client, wanted - plan.newest.keys()), **plan.newest}.items()}
        self.users = {name: self.read_users(client, name) for name, target in plan.targets.items() if target is None}

    def read_users(self, client: Client, name: Key) -> list[Key]:
        kind, number = name
        paths = [f"{kind}/{number}/relations"] + ([f"node/{number}/ways"] if kind == "node" else [])
        return [key(it) for path in paths for it in client.ask("GET", path)["elements"]]

    def conflict(self, name: Key, target: Element | None) -> str | None:
        """Why an element can't become so, as far as the plan goes now."""
        targets = self.plan.targets
        if target is None:
            for user in self.users[name]:
                after = targets.get(user)
                if user != name and (user not in targets or (after is not None and name in references(after))):
                    return f"which {user[0]} {user[1]} still lists"
            return None
        for ref in references(target):
            if targets[ref] is None if ref in targets else not self.visible[ref]:
                return f"which lists {ref[0]} {ref[1]}, and that is deleted"
        return None


def plan_of(client: Client, changeset: int) -> Plan:
    """What is left once each conflict has taken with it what can't be done without it."""
    row = client.ask("GET", f"changeset/{changeset}")["changeset"]
    made = versions_of(client, changeset)
    plan = Plan(read_newest(client, made), hidden=row["changes_count"] - sum(map(len, made.values())))
    for name, versions in made.items():
        add_target(client, plan, name, versions)
    links = Links(client, plan)
    while found := {name: why for name, target in plan.targets.items() if (why := links.conflict(name, target)) is not None}:
        for name, why in found.items():
            plan.skip(name, why)
    return plan
