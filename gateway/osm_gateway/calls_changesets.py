"""Changesets: opened, read, closed, uploaded to, downloaded, and looked for."""

from __future__ import annotations

import json
from typing import Any

from aiohttp import web

from . import documents, json_read, json_write, xml_write
from .call import Call, events_of, number_of
from .calls_discussions import shown, talk_of
from .calls_elements import texts_of
from .changes import ENCODER, change_of
from .changes_once import Change, closed, made_once, retagged, unended
from .changesets_known import Facts, Filters
from .changesets_past import Search
from .created_once import changeset_created
from .degrees import units_of
from .made_again import operations_of
from .plain_rows import rows_at
from .refusals import Asked, Operations, Refused
from .rows import Changeset
from .times import moment_of
from .xml_read import ChangeReader, TagsReader

MOST = 100
"""Changesets in one reply, as many as the server gives."""


async def tags_of(call: Call) -> dict[str, Any] | None:
    """What a new changeset or new tags say; None where the body is empty."""
    body, is_json = await call.document()
    if body.size > 1 << 20:
        raise Refused(413, "The tags of a changeset have more than 1048576 bytes")
    if not body.whole().strip():
        return None
    if is_json:
        return json_read.changeset(texts_of(body))
    found: list[dict[str, Any]] = [row for row in TagsReader().read(body.pieces()) if row is not None]
    return found[0]


async def create(call: Call) -> web.StreamResponse:
    call.user()
    tags = await tags_of(call)
    body = await call.sent([ENCODER.encode(tags)]) if tags is not None else None
    return call.text(await changeset_created(call, (tags or {}).get("tags", {}), body))


def one(call: Call, it: Changeset) -> web.StreamResponse:
    return shown(call, it, talk_of(call, it))


async def read(call: Call) -> web.StreamResponse:
    return one(call, (await call.value("GET", f"changeset/{call.path('id')}"))["changeset"])


async def update(call: Call) -> web.StreamResponse:
    call.user()
    tags = await tags_of(call)
    if tags is None:
        raise Refused(400, "Cannot parse valid changeset from xml string . The document is empty")
    body = await call.sent([ENCODER.encode(tags)])
    return one(call, json.loads((await retagged(call, call.path("id"), tags["tags"], body)).whole())["changeset"])


async def close(call: Call) -> web.StreamResponse:
    call.user()
    await closed(call, call.path("id"))
    return call.text("")


async def upload(call: Call) -> web.StreamResponse:
    call.user()
    number, operations = call.path("id"), Operations()
    body, is_json = await call.document()
    found = json_read.change(texts_of(body)) if is_json else ChangeReader().read(body.pieces())
    sent = await call.sent(change_of(found, operations))
    body.close()
    change = Change("POST", f"changeset/{number}/upload", sent, Asked(number, operations), lambda: operations_of(sent), lambda: unended(sent))
    reply = await made_once(call, change)
    write = documents.done_json if call.wants_json else documents.done_xml
    return await call.answer_in_parts(write(events_of(reply)))


async def download(call: Call) -> web.StreamResponse:
    reply = await call.ask("GET", f"changeset/{call.path('id')}/download")
    events = events_of(reply, rows=rows_at)
    pieces = documents.download_json(events) if call.wants_json else documents.download_xml(events, call.texts)
    return await call.answer_in_parts(pieces)


# ---- looking for changesets


def moment(call: Call, name: str, text: str | None) -> float | None:
    """What a parameter says, in seconds since 1970."""
    if not text:
        return None
    try:
        return moment_of(text).timestamp()
    except (ValueError, OverflowError):
        raise Refused(400, f"The parameter {name} can't be read: {text[:100]} is no moment") from None


def user_of(call: Call) -> int | None:
    """Whose changesets are asked for."""
    name, number = call.query("display_name"), call.passed_on("user").get("user")
    if name is None:
        return int(number) if number else None
    user = call.gateway.people.by_name.get(name)
    if user is None or number:
        raise Refused(*((404, f"There is no user {name}") if user is None else (400, "provide either the user ID or display name, but not both")))
    return user.id


def filters_of(call: Call) -> Filters:
    box = call.passed_on("bbox").get("bbox")
    west, south, east, north = map(units_of, box.split(",")) if box else (0, 0, 0, 0)
    earliest, _, latest = (call.query("time") or "").partition(",")
    given = (("time", earliest), ("time", latest), ("from", call.query("from")), ("to", call.query("to")))
    is_open, is_closed = (call.query(name) not in (None, "false") for name in ("open", "closed"))
    return Filters(user_of(call), (west, south, east, north) if box else None, is_open, is_closed, *(moment(call, *it) for it in given))


async def named(call: Call, ids: str) -> list[Changeset]:
    """Those that are there of a list of ids, the newest first."""
    numbers = [it.strip() for it in ids.split(",")]
    if not all(it.isascii() and it.isdigit() and len(it) <= 19 for it in numbers):
        raise Refused(400, "No changesets were given to search for")
    if len(numbers) > MOST:
        raise Refused(400, f"The parameter changesets takes {MOST} ids")
    found: list[Changeset] = []
    for number in sorted({int(it) for it in numbers}, reverse=True):
        try:
            found.append((await call.value("GET", f"changeset/{number}"))["changeset"])
        except Refused as why:
            if why.status != 404:
                raise
    return found


async def newest(call: Call, filters: Filters) -> list[Changeset]:
    """The newest that pass the server's filters, a hundred at most, the newest first."""
    query = call.passed_on("bbox") | ({"user": str(filters.user)} if filters.user is not None else {})
    query |= {name: "true" for name, is_set in (("open", filters.is_open), ("closed", filters.is_closed)) if is_set}
    return list(documents.rows(events_of(await call.ask("GET", "changesets", query)), "changesets"))


async def searched(call: Call, filters: Filters, limit: int, is_oldest_first: bool) -> list[Changeset]:
    """So many that pass at most: of the newest, and of older ones where these may belong there."""
    ids = call.query("changesets")
    found = await newest(call, filters) if ids is None else await named(call, ids)
    passes = filters.pass_times if ids is None else filters.pass_on  # the server has done the rest
    passing = [it for it in found if passes(Facts.of(it))]
    is_all = ids is not None or len(found) < MOST or Facts.of(found[-1]).created < filters.begins()
    older: list[Changeset] = []
    if not is_all and (is_oldest_first or len(passing) < limit):
        lacking = limit if is_oldest_first else limit - len(passing)
        older = await Search(call, filters).found(found[-1]["id"], lacking, is_oldest_first)
    return (older + passing[::-1] if is_oldest_first else passing + older)[:limit]


async def read_some(call: Call) -> web.StreamResponse:
    limit, order = number_of(call.query("limit") or str(MOST), 1, MOST), call.query("order") or "newest"
    if limit is None:
        raise Refused(400, f"Changesets limit must be between 1 and {MOST}")
    if order not in ("newest", "oldest"):
        raise Refused(400, "The order of changesets is newest or oldest")
    rows = iter(await searched(call, filters_of(call), limit, order == "oldest"))
    count = call.gateway.discussions.count
    if call.wants_json:
        return await call.answer_in_parts(documents.listed_json("changesets", rows, lambda it: json_write.changeset(it, count(it["id"]))))
    return await call.answer_in_parts(documents.listed_xml(rows, lambda it: xml_write.changeset(call.texts, it, count(it["id"]))))


__all__ = ["close", "create", "download", "read", "read_some", "update", "upload"]
