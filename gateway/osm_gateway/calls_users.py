"""The page /users, by which moderators add, change and take out users. As with the forms of OAuth no cookie is set: each request has
its moderator's name and token."""

from __future__ import annotations

import asyncio
import re
import secrets
from collections.abc import Callable, Iterable
from dataclasses import dataclass
from html import escape

from aiohttp import web

from . import pages
from .call import FORBIDDEN, Gateway
from .calls_oauth import WRONG, form_of
from .log import shown, tell
from .people import BadUsers, User
from .refusals import Refused
from .users_file import CHANGED, Found
from .users_text import ROLES, Draft

TITLE = "Users"
ANEW = "once the server, and that of notes, has been started anew with this text"
BUTTONS = {"rename": "Rename", "token": "Give a new token", "promote": "Make a moderator", "demote": "Make an ordinary user", "out": "Take out"}
SLOW = "Not all processes of this gateway have read the new text yet. Look at what they tell, or have them read it by SIGHUP."


@dataclass(frozen=True)
class Done:
    """What was done to whom, what it means, and a new token, which is shown this once."""

    user: User
    what: str
    means: str
    token: str = ""


Given = dict[str, str]


def new_token() -> str:
    return secrets.token_urlsafe(32)


def chosen(given: Given) -> int:
    text = given.get("user", "")
    if not re.fullmatch("[0-9]{1,19}", text):
        raise Refused(400, "Choose a user first")
    return int(text)


# ---- what can be done


def add(draft: Draft, given: Given, above: int) -> Done:
    token = new_token()
    it = draft.add(given.get("new", ""), "moderator" in given, token, above)
    what = f"{it.name} was added, with the id {it.id}, as a {ROLES[it.moderator]}"
    return Done(it, what, f"{it.name} reads alone, and changes the map and notes {ANEW}.", token)


def rename(draft: Draft, given: Given, _: int) -> Done:
    number = chosen(given)
    before = draft.user(number).name
    it = draft.rename(number, given.get("other", ""))
    return Done(it, f"{before} was renamed to {it.name}", f"It is taken here at once. Changes have it {ANEW}; those of before keep the old one.")


def renew(draft: Draft, given: Given, _: int) -> Done:
    token = new_token()
    it = draft.renew(chosen(given), token)
    means = f"The old one is refused here at once, with all tokens of OAuth. With the new one {it.name} reads alone, and changes the map and notes {ANEW}."
    return Done(it, f"{it.name} has a new token", means, token)


def give_role(moderator: bool) -> Callable[[Draft, Given, int], Done]:
    def give(draft: Draft, given: Given, _: int) -> Done:
        it = draft.give_role(chosen(given), moderator)
        return Done(it, f"The role of {it.name} is {ROLES[moderator]} now", f"This counts here at once, and for the server {ANEW}.")

    return give


def take_out(draft: Draft, given: Given, _: int) -> Done:
    it = draft.take_out(chosen(given))
    means = f"{it.name} is refused here at once, and by the server itself {ANEW}. What {it.name} did keeps that name, and nobody else is given the id {it.id}."
    return Done(it, f"{it.name} was taken out", means)


CHANGES: dict[str, Callable[[Draft, Given, int], Done]] = {
    "add": add, "rename": rename, "token": renew, "promote": give_role(True), "demote": give_role(False), "out": take_out,
}  # fmt: skip


# ---- the page


async def edit(gateway: Gateway, request: web.Request) -> web.StreamResponse:
    if not gateway.words.edit_users:
        raise Refused(404, "Users aren't edited by a page here: the gateway's option --edit-users allows it")
    given = await form_of(request) if request.method == "POST" else {}
    if not given:
        return asking()
    user = gateway.callers.log_in(request, given.get("name", ""), given.get("token", ""))
    if user is None:
        return asking(given.get("name", ""), WRONG, 401)
    request["user"] = user.name
    if not user.moderator:
        return asking(user.name, FORBIDDEN, 403)
    try:
        parts = await changed(gateway, user, given) if given.get("do", "show") != "show" else []
    except Refused as why:
        return listed(gateway, user, [pages.paragraph(why.text, "wrong")], why.status)
    return listed(gateway, user, parts)


def asking(name: str = "", wrong: str = "", status: int = 200) -> web.Response:
    why = [pages.paragraph(wrong, "wrong")] if wrong else []
    return pages.page(TITLE, pages.form(*why, pages.who(name), pages.button("do", "show", "Show the users")), status=status)


async def changed(gateway: Gateway, moderator: User, given: Given) -> list[str]:
    """Does what was asked for, and tells what was done."""
    gateway.blocks.refuse(moderator)
    found = gateway.users.found()
    if given.get("seen") != found.stamp:
        raise Refused(409, CHANGED)
    if given["do"] not in CHANGES:
        raise Refused(400, "The form has nothing that is done here")
    draft = drafted(found)
    own = draft.people.by_id.get(moderator.id)
    if own is None or own.token != moderator.token or not own.moderator:
        raise Refused(403, FORBIDDEN)
    done = CHANGES[given["do"]](draft, given, gateway.users.highest())
    # Who hangs up meanwhile doesn't leave it half done.
    everywhere = await asyncio.shield(gateway.users.write(found, draft.text()))
    tell(f"{shown(moderator.name)} has changed the users text: {shown(done.what)}")
    return told(done, everywhere)


def drafted(found: Found) -> Draft:
    try:
        return Draft(found.text())
    except BadUsers as why:
        raise Refused(409, f"The users text can't be read: {why}") from None


def told(done: Done, everywhere: bool) -> list[str]:
    parts = [pages.paragraph(f"{done.what}.", "done")]
    if done.token:
        parts += [pages.paragraph(f"The token of {done.user.name}, which isn't shown again:"), f"<p><code>{escape(done.token)}</code></p>\n"]
    return [*parts, pages.paragraph(done.means), *([] if everywhere else [pages.paragraph(SLOW, "wrong")])]


def listed(gateway: Gateway, moderator: User, parts: Iterable[str], status: int = 200) -> web.Response:
    """The users as the text has them now, and what can be done with them; not to a moderator who is one no longer."""
    own = gateway.people.by_id.get(moderator.id)
    if own is None or not own.moderator:
        return pages.page(TITLE, *parts, status=status)
    try:
        found = gateway.users.found()
        users = drafted(found).people.by_id.values()
    except Refused as why:
        return pages.page(TITLE, *parts, pages.paragraph(why.text, "wrong"), status=status if status != 200 else why.status)
    it = pages.form(
        pages.hidden("seen", found.stamp),
        pages.paragraph("Who you are, which each change asks for:"), pages.who(own.name), pages.button("do", "show", "Show the users anew"),
        pages.table(("Id", "Name", "Role", "Largest area"), map(row, users)), for_chosen(), for_new(),
    )  # fmt: skip
    return pages.page(TITLE, *parts, it, status=status)


def row(it: User) -> list[str]:
    choice = f'<label><input type="radio" name="user" value="{it.id}" aria-label="{it.id}, {escape(it.name)}"> {it.id}</label>'
    return [choice, escape(it.name), ROLES[it.moderator], "" if it.limit is None else f"{it.limit:,}"]


def for_chosen() -> str:
    return (
        "<h2>The user who is chosen above</h2>\n"
        + pages.entry("Another name", "other", more='maxlength="255" autocomplete="off"')
        + "".join(pages.button("do", value, label) for value, label in BUTTONS.items())
    )


def for_new() -> str:
    return (
        "<h2>A new user</h2>\n"
        + pages.entry("Name", "new", more='maxlength="255" autocomplete="off"')
        + pages.entry("A moderator", "moderator", "yes", "checkbox")
        + pages.button("do", "add", "Add")
    )


__all__ = ["edit"]
