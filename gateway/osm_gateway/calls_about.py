"""What a client asks before it works: versions, capabilities, permissions, users. The server has none of these calls."""

from __future__ import annotations

import time

from aiohttp import web

from . import documents, json_write, xml_write
from .call import Call, box_of, events_of
from .json_write import value_of
from .oauth import SCOPES
from .people import User
from .refusals import Refused
from .rows import Counts


async def versions(call: Call) -> web.StreamResponse:
    if call.wants_json:
        return call.answer(json_write.document(api='{"versions":["0.6"]}'))
    start = f'{xml_write.HEAD}<osm generator="{xml_write.GENERATOR}">\n'
    return call.answer(f"{start}<api><version>0.6</version></api>\n{xml_write.closed('osm')}")


def limits(call: Call) -> dict[str, dict[str, str | int | float]]:
    """Names and values of the server's limits (docs/API.md), and whether it answered last."""
    there = "offline" if call.gateway.server.is_lost else "online"
    rows: dict[str, dict[str, str | int | float]] = {
        "version": {"minimum": "0.6", "maximum": "0.6"},
        "area": {"maximum": 0.25},
        "note_area": {"maximum": 25},
        "tracepoints": {"per_page": 5000},
        "waynodes": {"maximum": 2000},
        "relationmembers": {"maximum": 32000},
        "changesets": {
            "maximum_elements": call.gateway.people.changes(), "default_query_limit": 100, "maximum_query_limit": 100,
        },
        "notes": {"default_query_limit": 100, "maximum_query_limit": 10_000},
        "timeout": {"seconds": 300},
        "status": {"database": there, "api": there, "gpx": "offline"},
    }  # fmt: skip
    return rows


async def capabilities(call: Call) -> web.StreamResponse:
    rows = limits(call)
    if call.wants_json:
        return call.answer(json_write.document(api=value_of(rows), policy='{"imagery":{"blacklist":[]}}'))
    api = "".join(f"<{name}{call.texts.attributes(**{k: str(v) for k, v in row.items()})}/>\n" for name, row in rows.items())
    policy = "<policy>\n<imagery/>\n</policy>\n"
    return call.answer(f"{xml_write.opened('osm')}<api>\n{api}</api>\n{policy}{xml_write.closed('osm')}")


async def permissions(call: Call) -> web.StreamResponse:
    """What the caller's token allows: nothing where there is none."""
    user = call.caller.user
    scopes = [name for name in SCOPES if user and call.caller.may(name) and not name.endswith("_gpx")]
    if call.gateway.notes is None and "write_notes" in scopes:
        scopes.remove("write_notes")
    if not (user and user.moderator):
        scopes = [name for name in scopes if name not in ("write_redactions", "write_blocks")]
    names = [f"allow_{name}" for name in scopes]
    if call.wants_json:
        return call.answer(json_write.document(permissions=value_of(names)))
    rows = "".join(f'<permission name="{name}"/>\n' for name in names)
    return call.answer(f"{xml_write.opened('osm')}<permissions>\n{rows}</permissions>\n{xml_write.closed('osm')}")


# ---- users


KEPT, MOST = 30.0, 20
"""Seconds for which a count is kept, and users of a list whose changesets are counted."""


async def counts_of(call: Call, it: User) -> Counts:
    """A user's changesets, up to the hundred that the server lists; unknown where it doesn't answer."""
    blocks = call.gateway.blocks.counts(it.id), call.gateway.blocks.counts(it.id, "creator")
    moment, count = call.gateway.counted.get(it.id, (0.0, 0))
    if time.monotonic() - moment > KEPT:
        try:
            reply = await call.ask("GET", "changesets", {"user": str(it.id)})
        except Refused:
            return Counts(None, *blocks)
        count = sum(1 for _ in documents.rows(events_of(reply), "changesets"))
        call.gateway.counted[it.id] = (time.monotonic(), count)
    return Counts(count, *blocks)


async def shown(call: Call, it: User, mine: bool) -> web.StreamResponse:
    counts = await counts_of(call, it)
    if call.wants_json:
        return call.answer(json_write.document(user=json_write.user(it, counts, mine)))
    return call.answer(xml_write.opened("osm") + xml_write.user(call.texts, it, counts, mine) + xml_write.closed("osm"))


async def user_details(call: Call) -> web.StreamResponse:
    return await shown(call, call.user(), mine=True)


async def user(call: Call) -> web.StreamResponse:
    found = call.gateway.people.by_id.get(call.path("id"))
    if found is None:
        raise Refused(404, f"There is no user with the id {call.path('id')}")
    return await shown(call, found, mine=False)


async def users(call: Call) -> web.StreamResponse:
    ids = (call.query("users") or "").split(",")
    if not all(it.isascii() and it.isdigit() and len(it) <= 19 for it in ids):
        raise Refused(400, "The parameter users is required, and must be of the form users=id[,id[,id...]]")
    found = [it for it in map(call.gateway.people.by_id.get, sorted(set(map(int, ids)))) if it]
    rows = [(it, await counts_of(call, it) if place < MOST else Counts()) for place, it in enumerate(found)]
    if call.wants_json:
        return call.answer("".join(documents.listed_json("users", iter(rows), lambda row: f'{{"user":{json_write.user(row[0], row[1], False)}}}')))
    return call.answer("".join(documents.listed_xml(iter(rows), lambda row: xml_write.user(call.texts, row[0], row[1], False))))


# ---- GPS traces


async def trackpoints(call: Call) -> web.StreamResponse:
    """None: editors that ask for them beside the map go on with it."""
    box_of(call.query("bbox"))
    page = call.query("page") or call.query("pageNumber") or "0"
    if not (page.isascii() and page.isdigit() and len(page) <= 9):
        raise Refused(400, "Page number must be greater than or equal to 0")
    text = f'{xml_write.HEAD}<gpx version="1.0" creator="{xml_write.GENERATOR}" xmlns="http://www.topografix.com/GPX/1/0"/>\n'
    return web.Response(text=text, content_type="application/gpx+xml", charset="utf-8")
