#!/usr/bin/python3
"""Undoes a changeset: examples/revert.py --server URL [--token-file FILE] [--comment TEXT] CHANGESET

Each element that it changed gets the version before it again: what it created is deleted, what it changed or deleted is as it
was. All comes in one upload of a new changeset. What somebody has changed since stays as it is, and so does what can't be undone
without it; it is listed, with the cause. The token is a user's, and HEGUNSAP_TOKEN of the environment where no file is named.
Status 0 where all is undone, 1 where something was skipped, 3 where the server refused or was lost.
"""

from __future__ import annotations

import argparse
import os
import sys
from typing import Any

sys.path.append(os.path.join(os.path.dirname(os.path.dirname(os.path.abspath(__file__))), "replication"))

from given_token import add_token
from map_client import Client, Lost, Refused
from undoing import Plan, plan_of
from undoing_order import operations

TRIES = 3  # since somebody may edit between the reading and the upload
BY_OTHERS = ("version", "missing", "used", "gone")


def blocks(plan: Plan) -> list[dict[str, Any]]:
    """The upload: neighbours of one action together."""
    found: list[dict[str, Any]] = []
    for action, element in operations(plan):
        if not found or action not in found[-1]:
            found.append({action: []})
        found[-1][action].append(element)
    return found


def upload(client: Client, undone: int, comment: str) -> tuple[Plan, int]:
    """The plan that was done, and the changeset that did it; 0 where nothing had to be done."""
    changeset = 0
    for left in reversed(range(TRIES)):
        plan = plan_of(client, undone)
        if not plan.targets:
            break
        if not changeset:
            changeset = client.ask("PUT", "changeset/create", {"tags": {"comment": comment, "created_by": "revert.py"}})
        try:
            client.ask("POST", f"changeset/{changeset}/upload", {"osmChange": blocks(plan)})
            break
        except Refused as why:
            if why.error not in BY_OTHERS or not left:
                client.ask("PUT", f"changeset/{changeset}/close")
                raise
    if changeset:
        client.ask("PUT", f"changeset/{changeset}/close")
    return plan, changeset


def tell(plan: Plan, undone: int, changeset: int) -> None:
    for (kind, number), why in sorted(plan.conflicts.items()):
        print(f"skipped: {kind} {number}, {why}")
    if plan.hidden:
        print(f"skipped: versions that are redacted and aren't shown: {plan.hidden}")
    deleted = sum(target is None for target in plan.targets.values())
    told = f"{len(plan.targets) - deleted} elements are as before, {deleted} are deleted, {plan.same} were so already"
    print(f"changeset {undone}: {told}" + (f"; changeset {changeset} did it" if changeset else ""))


def main() -> int:
    parser = argparse.ArgumentParser(usage=(__doc__ or "").split("\n\n")[0].partition(": ")[2])
    parser.add_argument("--server", required=True)
    add_token(parser)
    parser.add_argument("--comment")
    parser.add_argument("changeset", type=int)
    it = parser.parse_args()
    client = Client(it.server, it.token)
    try:
        plan, changeset = upload(client, it.changeset, it.comment or f"changeset {it.changeset} undone")
    except (Refused, Lost, OSError) as why:
        print(f"revert.py: {why}", file=sys.stderr)
        return 3
    tell(plan, it.changeset, changeset)
    return 1 if plan.conflicts or plan.hidden else 0


if __name__ == "__main__":
    sys.exit(main())
