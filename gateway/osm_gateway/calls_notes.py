"""Notes, of a server of their own."""

from __future__ import annotations

import json
from collections.abc import Iterator, Sequence
from datetime import datetime, timedelta, timezone
from functools import partial
from typing import Any

from aiohttp import web

from . import documents, hidden, json_write, notes_forms, notes_search, xml_write
from .call import FORM_BODY, Call, Form, box_of, events_of, number_of
from .changes import ENCODER
from .created_once import note_changed, note_created
from .degrees import NotDecimal, units_of
from .links import Links
from .refusals import Refused
from .documents import NoteForm
from .rows import Note
from .spool import Spool
from .times import moment_of
from .walk import Path

LONGEST = 2000
"""Characters of a text that the server takes; what it would refuse is refused before, so that a lost answer is no refusal."""


def notes_of(call: Call) -> Links:
    if call.gateway.notes is None:
        raise Refused(404, "Notes aren't served here")
    return call.gateway.notes


def check_length(text: str) -> None:
    if len(text) > LONGEST:
        raise Refused(400, f"The text of a note has at most {LONGEST} characters")


def place(given: dict[str, str], name: str) -> int:
    try:
        return units_of(given[name])
    except KeyError:
        raise Refused(400, f"No {name} was given") from None
    except NotDecimal:
        raise Refused(400, f"{name} was not a number") from None


# ---- what is answered


def form_of(call: Call) -> NoteForm:
    where = call.site
    if call.form in (Form.RSS, Form.GPX):
        return (notes_forms.rss if call.form is Form.RSS else notes_forms.gpx)(call.texts, where)
    if call.wants_json:
        return NoteForm(partial(json_write.note_start, site=where), json_write.comment, ",", lambda _: json_write.NOTE_END)
    start, comment = partial(xml_write.note_start, call.texts, site=where), partial(xml_write.comment, call.texts)
    return NoteForm(start, comment, "", lambda _: xml_write.NOTE_END)


async def heads_of(call: Call, replies: Sequence[Spool], base: Path) -> list[Note]:
    """Notes without their comments, read in turns."""
    found: list[Note] = []

    def reading() -> Iterator[str]:
        for it in documents.heads(events_of(*replies), base):
            if it is not None:
                found.append(it)
            yield ""

    await call.work(reading())
    return found


AROUND = {
    Form.XML: ("", xml_write.closed("osm")), Form.RSS: (notes_forms.RSS, notes_forms.RSS_END), Form.GPX: (notes_forms.GPX, notes_forms.GPX_END),
}  # fmt: skip


def wrapped(call: Call, pieces: Iterator[str], one: bool) -> Iterator[str]:
    """A whole document of notes, or of one of them."""
    if call.wants_json:
        yield "" if one else '{"type":"FeatureCollection","features":[\n'
        yield from pieces
        yield "\n" if one else "\n]}\n"
    else:
        start, end = AROUND[call.form]
        yield start or xml_write.opened("osm")
        yield from pieces
        yield end


async def answered(call: Call, reply: Spool) -> web.StreamResponse:
    """The note that a reply of the server has."""
    wanted = [*hidden.shown(call, await heads_of(call, [reply], documents.ONE))]
    pieces = documents.notes(events_of(reply), documents.ONE, wanted, form_of(call))
    return await call.answer_in_parts(wrapped(call, pieces, one=True))


# ---- calls


async def create(call: Call) -> web.StreamResponse:
    server, given = notes_of(call), await call.parameters()
    lat7, lon7, text = place(given, "lat"), place(given, "lon"), given.get("text", "")
    if not text:
        raise Refused(400, "No text was given")
    if abs(lat7) > 900_000_000 or abs(lon7) > 1_800_000_000:
        raise Refused(400, "The note is outside this world")
    check_length(text)
    row = {"lat7": lat7, "lon7": lon7, "text": text}
    return await answered(call, await note_created(call, row, await call.sent([ENCODER.encode(row)]), server))


async def read(call: Call) -> web.StreamResponse:
    hidden.refuse_hidden(call, call.path("id"))
    return await answered(call, await call.ask("GET", f"notes/{call.path('id')}", server=notes_of(call)))


async def change(call: Call) -> web.StreamResponse:
    """Comments on, closes or opens again."""
    server, given = notes_of(call), await call.parameters()
    call.user()
    what = call.request.match_info["what"]
    if what == "comment" and not given.get("text"):
        raise Refused(400, "No text was given")
    hidden.refuse_hidden(call, call.path("id"))
    if what == "reopen" and hidden.is_hidden(call, call.path("id")):
        hidden.show(call, call.path("id"))
        return await read(call)
    # OSM's clients open a note again without a word, and the server wants one character.
    row: dict[str, Any] = {"text": given.get("text", "") or (" " if what == "reopen" else "")}
    check_length(row["text"])
    sent = await call.sent([ENCODER.encode(row)])
    return await answered(call, await note_changed(call, call.path("id"), what, row["text"], sent, server))


def number(call: Call, name: str, standard: int, least: int, most: int) -> int:
    found = number_of(call.query(name) or str(standard), least, most)
    if found is None:
        raise Refused(400, f"The parameter {name} is a number from {least} to {most}")
    return found


def since_of(days: int) -> datetime | None:
    return datetime.now(timezone.utc) - timedelta(days=days) if days > 0 else None


async def search(call: Call) -> web.StreamResponse:
    """Those of a box, the newest first. `closed` says for how many days closed ones are shown, 7 if not said; -1 is for ever."""
    server, box = notes_of(call), box_of(call.query("bbox"))
    days, limit = number(call, "closed", 7, -1, 100_000), number(call, "limit", 100, 1, 10_000)
    since, left = since_of(days), limit
    replies = await notes_search.box_replies(call, server, box, notes_search.Asked(days != 0, since, limit))
    found = [*hidden.shown(call, await heads_of(call, replies, documents.SOME))]
    for place, it in enumerate(found):
        is_old = since is not None and it is not None and "closed_at" in it and moment_of(it["closed_at"]) < since
        if it is None or is_old or not left:
            found[place] = None
        else:
            left -= 1
    pieces = documents.notes(events_of(*replies), documents.SOME, found, form_of(call))
    return await call.answer_in_parts(wrapped(call, pieces, one=False))


async def search_texts(call: Call) -> web.StreamResponse:
    """By words of their texts, users, moments; of a box or of all."""
    server, box = notes_of(call), box_of(call.query("bbox")) if call.query("bbox") is not None else None
    days, limit = number(call, "closed", 7, -1, 100_000), number(call, "limit", 100, 1, 1_000)
    ids = await notes_search.searched(call, server, box, notes_search.wanted_of(call, days, since_of(days)), limit)
    replies = [await call.ask("GET", f"notes/{it}", server=server) for it in ids]
    found = [*hidden.shown(call, await heads_of(call, replies, documents.ONE))]
    pieces = documents.notes(events_of(*replies), documents.ONE, found, form_of(call))
    return await call.answer_in_parts(wrapped(call, pieces, one=False))


async def feed(call: Call) -> web.StreamResponse:
    """The newest of a box, or of all, as RSS."""
    call.form = Form.RSS
    return await (search(call) if call.query("bbox") is not None else search_texts(call))


async def hide(call: Call) -> web.StreamResponse:
    """From everybody but moderators."""
    call.moderator()
    await call.body(FORM_BODY)
    reply = await call.ask("GET", f"notes/{call.path('id')}", server=notes_of(call))
    hidden.hide(call, call.path("id"))
    return await answered(call, reply)


async def followed(call: Call) -> int:
    """The number of the note that is to be followed or left, which has to be there."""
    call.user()
    hidden.refuse_hidden(call, call.path("id"))
    await call.ask("GET", f"notes/{call.path('id')}", server=notes_of(call))
    return call.path("id")


async def subscribe(call: Call) -> web.StreamResponse:
    number = await followed(call)
    if not call.gateway.store.do("INSERT OR IGNORE INTO note_subscriptions VALUES (?, ?)", number, call.user().id):
        raise Refused(409, f"You are already subscribed to note {number}.")
    return call.text("")


async def unsubscribe(call: Call) -> web.StreamResponse:
    number = await followed(call)
    if not call.gateway.store.do("DELETE FROM note_subscriptions WHERE note = ? AND user = ?", number, call.user().id):
        raise Refused(404, f"You are not subscribed to note {number}.")
    return call.text("")
