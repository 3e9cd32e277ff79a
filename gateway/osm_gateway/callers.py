"""Who calls: a user's name and token, the token alone, or a token of OAuth that stands for a user and allows less."""

from __future__ import annotations

import base64
import binascii
import re
from dataclasses import dataclass

from aiohttp import web

from .limits import Guesses, guesser_of
from .oauth import Grants
from .people import People, User
from .refusals import Refused

UNPERMITTED = "You have not permitted the application access to this facility"


@dataclass(frozen=True)
class Caller:
    """`token` is that of the users text, which the server knows; `scopes` is None where all is allowed that its user may."""

    token: str | None = None
    user: User | None = None
    scopes: frozenset[str] | None = None

    def may(self, *scopes: str) -> bool:
        """Whether one of these is allowed, where there are any."""
        return not scopes or self.scopes is None or not self.scopes.isdisjoint(scopes)


def scopes_of(method: str, path: str) -> tuple[str, ...]:
    """Of what a token of OAuth must allow one thing for a call, as on OSM's servers; none where nobody need say who he is."""
    call = path.removeprefix("/api/0.6/")
    if call.startswith(("user/details", "user/preferences", "user/gpx_files", "user/blocks")):
        return ("read_prefs",) if method in ("GET", "HEAD") else ("write_prefs",)
    if method in ("GET", "HEAD", "OPTIONS"):
        return ()
    if call.startswith("notes"):
        return ("write_notes",)
    if call.startswith("user_blocks"):
        return ("write_blocks",)
    if call.startswith("redactions") or "/redact" in call:
        return ("write_redactions",)
    talk = re.fullmatch(r"changeset/(comment/)?[0-9]+/(comment|subscribe|unsubscribe|subscription|hide|unhide)(\.\w+)?", call)
    return ("write_api", "write_changeset_comments") if talk else ("write_api",)


def named(field: str) -> str:
    """The name that a field of Basic has, as far as its first colon; empty of all else."""
    kind, _, text = field.strip().partition(" ")
    if kind.lower() != "basic":
        return ""
    try:
        return base64.b64decode(text.strip(), validate=True).decode("utf-8").partition(":")[0]
    except (binascii.Error, UnicodeDecodeError):
        return ""


class Callers:
    def __init__(self, people: People, grants: Grants, guesses: int) -> None:
        self.people, self.grants, self.guesses = people, grants, Guesses(guesses)

    def of(self, request: web.Request) -> Caller:
        field = request.headers.get("Authorization")
        if not field:
            return Caller()
        address, name = guesser_of(request), named(field)
        self.guesses.check(address, name)
        try:
            found = self.found(self.people.token_of(field))
        except Refused:
            self.guesses.wrong(address, name, field)
            raise
        if found.user is None:
            self.guesses.wrong(address, "", field)
        elif name:
            self.guesses.right(address, name)
        return found

    def guessed(self, request: web.Request, shown: str) -> None:
        """Counts a wrong code or secret of an application."""
        self.guesses.wrong(guesser_of(request), "", shown)

    def check(self, request: web.Request) -> None:
        """Refuses an address that has guessed too often."""
        self.guesses.check(guesser_of(request))

    def found(self, token: str | None) -> Caller:
        user = self.people.by_token.get(token or "")
        if user is not None or token is None:
            return Caller(token, user)
        granted = self.grants.user_of(token)
        return Caller(granted[0].token, granted[0], granted[1]) if granted else Caller(token)

    def log_in(self, request: web.Request, name: str, token: str) -> User | None:
        """The user of a form, or None where name and token don't belong together."""
        address = guesser_of(request)
        self.guesses.check(address, name)
        user = self.people.by_token.get(token)
        if user is None or user.name != name:
            self.guesses.wrong(address, name, token)
            return None
        self.guesses.right(address, name)
        return user
