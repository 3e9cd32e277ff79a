"""Pages of blocks at OSM's addresses: where a user who is blocked reads why, and where moderators block and end."""

from __future__ import annotations

from html import escape

from aiohttp import web

from . import pages
from .blocks import Block
from .call import Gateway
from .calls_blocks import LONGEST, MOST_HOURS, moderated, wanted_of
from .calls_oauth import WRONG, form_of
from .log import shown, tell
from .people import User
from .refusals import Refused
from .store import now
from .times import moment_text, utc

HEADS = ("Block", "User", "Until", "Reason")
READ = "I have read this"
READER = "This block is of another user: whoever it is of says so here"


def name_of(gateway: Gateway, number: int) -> str:
    user = gateway.people.by_id.get(number)
    return user.name if user else f"user_{number}"


def moment(seconds: int) -> str:
    return utc(moment_text(seconds))


def until(it: Block) -> str:
    if it.revoker is not None:
        return f"{moment(it.ends)}, when it was ended"
    return moment(it.ends) + (", and until it has been read" if it.needs_view else "")


def row(gateway: Gateway, it: Block) -> list[str]:
    """Cells of a table, with a link."""
    cells = name_of(gateway, it.user), until(it), it.reason
    return [f'<a href="/user_blocks/{it.id}">{it.id}</a>', *[escape(it) for it in cells]]


# ---- one block


def block_of(gateway: Gateway, request: web.Request) -> Block:
    number = int(request.match_info["id"])
    it = gateway.blocks.one(number) if number < 1 << 63 else None
    if it is None:
        raise Refused(404, f"There is no block with the id {number}")
    return it


def act(gateway: Gateway, it: Block, user: User, given: dict[str, str]) -> None:
    if given.get("do") == "read":
        if user.id != it.user:
            raise Refused(403, READER)
        gateway.blocks.viewed(it.id)
    elif given.get("do") == "end":
        moderated(gateway, user)
        gateway.blocks.revoke(it.id, user.id)
        tell(f"{shown(user.name)} has ended the block {it.id}")
    else:
        raise Refused(400, "The form has nothing that is done here")


async def one(gateway: Gateway, request: web.Request) -> web.StreamResponse:
    it, parts, status = block_of(gateway, request), list[str](), 200
    if request.method == "POST":
        parts, status = await done(gateway, request, lambda user, given: act(gateway, it, user, given))
    it = block_of(gateway, request)
    holds = it.needs_view or it.ends > now()
    names = name_of(gateway, it.user), name_of(gateway, it.creator)
    parts += [pages.paragraph(f"{names[0]} is blocked by {names[1]} and changes nothing." if holds else f"{names[0]} was blocked by {names[1]}.")]
    parts += [pages.paragraph(f"From {moment(it.created)} until {until(it)}."), pages.paragraph(it.reason)]
    if holds:
        read = pages.button("do", "read", READ) if it.needs_view else ""
        parts += [pages.form(pages.who(), read, pages.button("do", "end", "End it, as a moderator"))]
    return pages.page(f"Block {it.id}", *parts, status=status)


async def done(gateway: Gateway, request: web.Request, do: pages.Doing) -> tuple[list[str], int]:
    """What a form was sent for; parts of the page and its status."""
    given = await form_of(request)
    user = gateway.callers.log_in(request, given.get("name", ""), given.get("token", ""))
    if user is None:
        return [pages.paragraph(WRONG, "wrong")], 401
    request["user"] = user.name
    try:
        do(user, given)
    except Refused as why:
        return [pages.paragraph(why.text, "wrong")], why.status
    return [pages.paragraph("It is done.", "done")], 200


# ---- all of them


def add(gateway: Gateway, moderator: User, given: dict[str, str]) -> None:
    moderated(gateway, moderator)
    user = gateway.people.by_name.get(given.get("whom", ""))
    if user is None:
        raise Refused(404, f"There is no user {given.get('whom', '')[:255]}")
    wanted = wanted_of(gateway, {**given, "user": str(user.id)})
    it = gateway.blocks.add(user.id, moderator.id, wanted.hours, wanted.needs_view, wanted.reason)
    tell(f"{shown(moderator.name)} has blocked {shown(user.name)} by the block {it.id}")


async def newest(gateway: Gateway, request: web.Request) -> web.StreamResponse:
    parts, status = list[str](), 200
    if request.method == "POST":
        parts, status = await done(gateway, request, lambda user, given: add(gateway, user, given))
    found = gateway.blocks.newest()
    parts += [pages.table(HEADS, [row(gateway, it) for it in found]) if found else pages.paragraph("Nobody has been blocked.")]
    parts += ["<h2>A new block, by a moderator</h2>\n", pages.form(
        pages.entry("Who is blocked", "whom", more='maxlength="255" autocomplete="off" required'),
        pages.entry("For how many hours", "period", "24", more=f'inputmode="numeric" pattern="[0-9]+" title="0 to {MOST_HOURS}" required'),
        pages.entry("Why", "reason", more=f'maxlength="{LONGEST}" autocomplete="off" required'),
        pages.entry("It holds until it has been read, too", "needs_view", "true", "checkbox"),
        pages.who(), pages.button("do", "block", "Block"),
    )]  # fmt: skip
    return pages.page("Blocks", *parts, status=status)


__all__ = ["newest", "one"]
