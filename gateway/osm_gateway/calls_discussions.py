"""Discussions of changesets: comments, who follows them, comments that a moderator hides, a feed."""

from __future__ import annotations

from collections.abc import Awaitable, Callable

from aiohttp import web

from . import feeds, json_write, xml_write
from .call import Call, Gateway
from .discussions import Remark
from .refusals import Refused
from .rows import Changeset

LONGEST = 2000


def talk_of(call: Call, it: Changeset) -> list[Remark] | None:
    """What is said of a changeset, where the call asks for it."""
    if "include_discussion" not in call.request.query:
        return None
    hidden = call.query("show_hidden_comments") is not None and call.caller.user is not None and call.caller.user.moderator
    return call.gateway.discussions.of(it["id"], hidden)


def shown(call: Call, it: Changeset, talk: list[Remark] | None) -> web.StreamResponse:
    count = call.gateway.discussions.count(it["id"])
    if call.wants_json:
        return call.answer(json_write.document(changeset=json_write.changeset(it, count, talk)))
    return call.answer(xml_write.opened("osm") + xml_write.changeset(call.texts, it, count, talk) + xml_write.closed("osm"))


async def changeset_of(call: Call, number: int) -> Changeset:
    it: Changeset = (await call.value("GET", f"changeset/{number}"))["changeset"]
    return it


async def comment(call: Call) -> web.StreamResponse:
    user, number = call.user(), call.path("id")
    text = (await call.parameters()).get("text")
    if not text:
        raise Refused(400, "No text was given")
    if len(text) > LONGEST:
        raise Refused(400, f"A comment has at most {LONGEST} characters")
    it = await changeset_of(call, number)
    if it["open"]:
        raise Refused(409, f"The changeset {number} is not yet closed.")
    call.gateway.discussions.say(number, user.id, text)
    return shown(call, it, None)


async def subscribe(call: Call) -> web.StreamResponse:
    user, it = call.user(), await changeset_of(call, call.path("id"))
    if not call.gateway.discussions.follow(it["id"], user.id):
        raise Refused(409, f"You are already subscribed to changeset {it['id']}.")
    return shown(call, it, None)


async def unsubscribe(call: Call) -> web.StreamResponse:
    user, it = call.user(), await changeset_of(call, call.path("id"))
    if not call.gateway.discussions.leave(it["id"], user.id):
        raise Refused(404, f"You are not subscribed to changeset {it['id']}.")
    return shown(call, it, None)


def seen(visible: bool) -> Callable[[Call], Awaitable[web.StreamResponse]]:
    async def change(call: Call) -> web.StreamResponse:
        call.moderator()
        number = call.path("id")
        found = call.gateway.discussions.one(number)
        if found is None:
            raise Refused(404, f"There is no comment with the id {number}")
        it = await changeset_of(call, found.changeset)
        call.gateway.discussions.show(number, visible)
        return shown(call, it, call.gateway.discussions.of(found.changeset, True))

    return change


async def feed(gateway: Gateway, request: web.Request) -> web.StreamResponse:
    """The newest comments as RSS, of all changesets or of one."""
    number = request.match_info.get("id")
    rows = gateway.discussions.of(int(number))[::-1] if number else gateway.discussions.newest(feeds.MOST)
    site = gateway.site(request)
    items = [feeds.Item(f"{it.user} on changeset {it.changeset}", f"{site}/changeset/{it.changeset}#c{it.id}", it.text, it.date) for it in rows]
    return feeds.answer("Comments on changesets", f"{site}/", items)
