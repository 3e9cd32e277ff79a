"""Blocks of users: given and ended by moderators, read by everybody."""

from __future__ import annotations

from typing import Any, NamedTuple

from aiohttp import web

from . import documents, json_write, xml_write
from .blocks import Block
from .call import FORBIDDEN, Call, Gateway, number_of
from .people import User
from .refusals import Refused
from .times import moment_text

MOST_HOURS, LONGEST = 87_660, 2000
"""Ten years, as on OSM's server; and characters of a reason."""


def named(call: Call, number: int) -> dict[str, Any]:
    user = call.gateway.people.by_id.get(number)
    return {"uid": number, "user": user.name if user else f"user_{number}"}


def own(it: Block) -> dict[str, Any]:
    moments = {"created_at": it.created, "updated_at": it.updated, "ends_at": it.ends}
    return {"id": it.id, **{name: moment_text(at) for name, at in moments.items()}, "needs_view": it.needs_view}


def people(call: Call, it: Block) -> dict[str, dict[str, Any]]:
    numbers = {"user": it.user, "creator": it.creator, "revoker": it.revoker}
    return {name: named(call, number) for name, number in numbers.items() if number is not None}


def as_json(call: Call, it: Block, with_reason: bool) -> str:
    return json_write.value_of({**own(it), **people(call, it), **({"reason": it.reason} if with_reason else {})})


def as_xml(call: Call, it: Block, with_reason: bool) -> str:
    who = "".join(f"<{name}{call.texts.attributes(**row)}/>\n" for name, row in people(call, it).items())
    reason = f"{xml_write.inner(call.texts, 'reason', it.reason)}\n" if with_reason else ""
    return f"<user_block{call.texts.attributes(**own(it))}>\n{who}{reason}</user_block>\n"


def shown(call: Call, it: Block) -> web.StreamResponse:
    if call.wants_json:
        return call.answer(json_write.document(user_block=as_json(call, it, True)))
    return call.answer(xml_write.opened("osm") + as_xml(call, it, True) + xml_write.closed("osm"))


def found(call: Call) -> Block:
    it = call.gateway.blocks.one(call.path("id"))
    if it is None:
        raise Refused(404, f"There is no block with the id {call.path('id')}")
    return it


class Wanted(NamedTuple):
    """What a new block is to be."""

    user: User
    hours: int
    needs_view: bool
    reason: str


def wanted_of(gateway: Gateway, given: dict[str, str]) -> Wanted:
    """Refused in the order and the words of OSM's server."""
    text = given.get("user")
    if not text:
        raise Refused(400, "No user was given")
    user = gateway.people.by_id.get(number_of(text, 1, (1 << 63) - 1) or 0)
    if user is None:
        raise Refused(404, f"There is no user with the id {text[:100]}")
    if not given.get("reason"):
        raise Refused(400, "No reason was given")
    if len(given["reason"]) > LONGEST:
        raise Refused(400, f"A reason has at most {LONGEST} characters")
    if not given.get("period"):
        raise Refused(400, "No period was given")
    hours = number_of(given["period"], 0, MOST_HOURS)
    if hours is None:
        raise Refused(400, f"Period must be a number of hours between 0 and {MOST_HOURS}")
    if given.get("needs_view", "true") != "true":
        raise Refused(400, "Needs_view must be true if provided")
    return Wanted(user, hours, "needs_view" in given, given["reason"])


def moderated(gateway: Gateway, user: User) -> None:
    """Refuses whoever is no moderator, or is blocked."""
    if not user.moderator:
        raise Refused(403, FORBIDDEN)
    gateway.blocks.refuse(user)


async def create(call: Call) -> web.StreamResponse:
    creator = call.moderator()
    it = wanted_of(call.gateway, await call.parameters())
    return shown(call, call.gateway.blocks.add(it.user.id, creator.id, it.hours, it.needs_view, it.reason))


async def read(call: Call) -> web.StreamResponse:
    it = found(call)
    if call.caller.user is not None and call.caller.user.id == it.user:
        call.gateway.blocks.viewed(it.id)
    return shown(call, found(call))


async def active(call: Call) -> web.StreamResponse:
    """Those of the caller that hold, without their reasons, as on OSM's server."""
    rows = iter(call.gateway.blocks.active(call.user().id))
    if call.wants_json:
        return call.answer("".join(documents.listed_json("user_blocks", rows, lambda it: as_json(call, it, False))))
    return call.answer("".join(documents.listed_xml(rows, lambda it: as_xml(call, it, False))))


async def revoke(call: Call) -> web.StreamResponse:
    """OSM's interface has no such call: there a page does it."""
    moderator, it = call.moderator(), found(call)
    call.gateway.blocks.revoke(it.id, moderator.id)
    return shown(call, found(call))
