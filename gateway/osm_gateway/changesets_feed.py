"""Changesets as a feed, of all, of a box or of a user, for whoever looks after a place with a reader of feeds."""

from __future__ import annotations

from dataclasses import replace

from aiohttp import web

from . import feeds
from .call import Call
from .calls_changesets import filters_of, searched
from .degrees import degrees_of
from .refusals import Refused
from .rows import SIDES, Changeset, edges


def item(it: Changeset, site: str) -> feeds.Item:
    said = it["tags"].get("comment", "")
    count = f"{it['changes_count']} change{'' if it['changes_count'] == 1 else 's'}"
    sides = edges(it)
    box = f"<georss:box>{' '.join(degrees_of(sides[side]) for side in SIDES)}</georss:box>\n" if sides else ""
    text = f"{said}\n{count}" if said else count
    return feeds.Item(f"Changeset {it['id']} by {it['user']}", f"{site}/changeset/{it['id']}", text, it["created_at"], box)


async def feed(call: Call) -> web.StreamResponse:
    """The newest hundred, with the parameters of `changesets`."""
    name, filters = call.request.match_info.get("name"), filters_of(call)
    if name is not None:
        user = call.gateway.people.by_name.get(name)
        if user is None:
            raise Refused(404, f"There is no user {name}")
        filters = replace(filters, user=user.id)
    rows = await searched(call, filters, feeds.MOST, False)
    return feeds.answer(f"Changesets of {name}" if name is not None else "Changesets", f"{call.site}/history", [item(it, call.site) for it in rows])


__all__ = ["feed"]
