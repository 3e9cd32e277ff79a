"""Elements: the map of a box, single ones, their versions, who lists them; and changes of one element."""

from __future__ import annotations

import json
import re
from collections.abc import Iterator
from typing import Any
from urllib.parse import parse_qsl

from aiohttp import web

from . import documents, json_read
from .call import Call, box_of, events_of
from .changes import ENCODER
from .changes_once import Change, made_once, redacted
from .made_again import Made
from .plain_rows import rows_at
from .refusals import Asked, Operations, Refused
from .spool import Spool
from .xml_read import ElementReader

VERSIONS = 100
"""Versions by number in one fetch of many: each is a request to the server."""


async def elements(call: Call, *replies: Spool) -> web.StreamResponse:
    events = events_of(*replies, rows=rows_at)
    if call.wants_json:
        return await call.answer_in_parts(documents.elements_json(events))
    # osmosis writes a bound of its own and can't write another one behind it.
    bounded = not call.request.headers.get("User-Agent", "").startswith("Osmosis/")
    return await call.answer_in_parts(documents.elements_xml(events, call.texts, bounded))


async def read(call: Call) -> web.StreamResponse:
    """What the server has under the same path."""
    path = call.request.path.split("/api/0.6/", 1)[1].removesuffix(".json").removesuffix(".xml")
    return await elements(call, await call.ask("GET", path, call.passed_on("at", "show_redactions")))


async def read_map(call: Call) -> web.StreamResponse:
    return await elements(call, await call.ask("GET", "map", {"bbox": box_of(call.query("bbox")), **call.passed_on("at")}))


async def read_many(call: Call) -> web.StreamResponse:
    """Elements by their ids, or by ids with versions, as `nodes=1,2v3`."""
    kinds = call.request.match_info["kinds"]
    found = [re.fullmatch(r"([0-9]{1,19})(?:v([0-9]{1,19}))?", it.strip()) for it in (call.query(kinds) or "").split(",")]
    if not all(found):
        raise Refused(400, f"The parameter {kinds} is required, and must be of the form {kinds}=ID[vVER][,ID[vVER]]...")
    pairs = [(it[1], it[2]) for it in found if it]
    ids, versions = [it for it, version in pairs if not version], [pair for pair in pairs if pair[1]]
    if len(versions) > VERSIONS:
        raise Refused(414, f"A fetch of many takes {VERSIONS} versions by number")
    replies = [await call.ask("GET", kinds, {kinds: ",".join(ids)})] if ids else []
    replies += [await call.ask("GET", f"{kinds[:-1]}/{number}/{version}") for number, version in versions]
    return await elements(call, *replies)


# ---- changes of one element


async def written(call: Call, kind: str, action: str, method: str, path: str) -> web.StreamResponse:
    call.user()
    body, is_json = await call.document()
    if is_json:
        row = json_read.element(texts_of(body), kind, action)
    else:
        row = await read_element(call, body, kind, action)
    operations = Operations()
    operations.add([row])
    operations.guards = int(action != "create")
    asked, sent = Asked(row.get("changeset", 0), operations), await call.sent([ENCODER.encode(row)])
    # What can be told of a lost answer needs an id and a version, without which the server refuses a change.
    whole = {"id": call.path("id") if action != "create" else 0, "version": 0, "tags": {}, **row}
    upload = f'{{"osmChange":[{{"{action}":[{ENCODER.encode({**row, "id": -1})}]}}'
    change = Change(method, path, sent, asked, lambda: iter([(action, whole)]), lambda: iter([upload]), number_of)
    return call.text(json.loads((await made_once(call, change)).whole()))


def number_of(made: list[Made], _: object) -> Iterator[str]:
    """The server's answer to a change of one element: the id of what was created, or else the new version."""
    yield str(made[0].new_id if made[0].action == "create" else made[0].version)


async def read_element(call: Call, body: Spool, kind: str, action: str) -> dict[str, Any]:
    """The element of an XML document, read in turns."""
    found: list[dict[str, Any]] = []

    def reading() -> Iterator[str]:
        for row in ElementReader(kind, action).read(body.pieces()):
            if row is not None:
                found.append(row)
            yield ""

    await call.work(reading())
    return found[0]


def texts_of(body: Spool) -> Iterator[str]:
    try:
        yield from body.texts()
    except UnicodeDecodeError:
        raise Refused(400, "The document is no UTF-8") from None


async def create(call: Call) -> web.StreamResponse:
    kind = call.request.match_info["kind"]
    return await written(call, kind, "create", "PUT", f"{kind}/create")


async def modify(call: Call) -> web.StreamResponse:
    kind = call.request.match_info["kind"]
    return await written(call, kind, "modify", "PUT", f"{kind}/{call.path('id')}")


async def delete(call: Call) -> web.StreamResponse:
    kind = call.request.match_info["kind"]
    return await written(call, kind, "delete", "DELETE", f"{kind}/{call.path('id')}")


# ---- redactions


async def new_redaction(call: Call) -> web.StreamResponse:
    """Of `{"title":TEXT}`, or of a form or a parameter `title`. Redactions can't be read, so nothing tells whether one was made."""
    call.user()
    body = (await call.body(1 << 16)).whole()
    try:
        text = body.decode("utf-8")
        title = json.loads(text)["title"] if text.lstrip().startswith("{") else dict(parse_qsl(text)).get("title", call.query("title"))
    except (ValueError, KeyError, TypeError):
        title = None
    if not isinstance(title, str):
        raise Refused(400, "The parameter title is required")
    return call.text(await call.value("POST", "redactions", body=await call.sent([ENCODER.encode({"title": title})])))


async def redact(call: Call) -> web.StreamResponse:
    kind = call.request.match_info["kind"]
    call.user()
    await redacted(call, f"{kind}/{call.path('id')}/{call.path('version')}", call.passed_on("redaction"))
    return call.text("")


# ---- the feed


async def feed(call: Call) -> web.StreamResponse:
    """The server's feed, which OSM's API has no call for: as it stands, in units."""
    path = call.request.path.split("/api/0.6/", 1)[1].removesuffix(".json")
    return web.Response(body=(await call.ask("GET", path, server=call.gateway.server)).whole(), content_type="application/json")
