"""Changesets and notes that are created, and comments on notes: each once, and answered also where the server's answer is lost.

Before a creation the caller's open changesets are read, or the notes of that very place, or the comments of the note. Where the answer
is lost they are read again, and what is new and says what was sent is what was made. Nothing keeps one that isn't there yet from
being made later, so where none is found in time nobody knows.
"""

from __future__ import annotations

import json
from collections.abc import Awaitable, Callable, Hashable, Iterator
from dataclasses import dataclass, field
from typing import Any

from .call import Call, events_of
from .changes import ENCODER
from .changes_once import NOWHERE
from .degrees import degrees_of
from .doubts import Away, Doubt, seen, unknown
from .links import InDoubt, Links
from .log import tell
from .refusals import Asked, Refused, refusal
from .spool import Spool
from .walk import Event, Path, Sort

Row = dict[str, Any]
COMMENTS = 10_000
"""Comments that a note takes (docs/API.md)."""


@dataclass(frozen=True)
class Creation:
    """How something is created, and found where the answer is lost."""

    key: Hashable
    """Of several with the same key one goes behind the other."""
    before: Callable[[], Awaitable[int]]
    """What is known to be there before it."""
    send: Callable[[], Awaitable[Spool]]
    found: Callable[[int], Awaitable[list[Spool]]]
    """Answers made of what is new; Refused where it can be told that it was refused."""
    hint: str

    async def once(self, call: Call) -> Spool:
        """The server's answer, or the one that is found; of several none is known to be it."""
        async with call.gateway.once.alone(self.key):
            known = await known_before(self.before)
            try:
                return await self.send()
            except InDoubt as why:
                lost, doubt = why, Doubt()
            tell(f"the answer to {call.request.method} {call.request.path} was lost: {lost}")
            while True:
                try:
                    answers = await self.found(known)
                    if len(answers) == 1:
                        return answers[0]
                    if lost.refused is not None and not answers:
                        raise lost.refused
                    if answers or doubt.is_settled():
                        raise unknown(lost, "this was made", self.hint)
                except Away:
                    pass
                if not await doubt.goes_on():
                    raise unknown(lost, "this was made", self.hint)


async def known_before(before: Callable[[], Awaitable[int]]) -> int:
    """0 where the server refuses to tell: then it refuses the call too, and says why."""
    try:
        return await before()
    except Refused as why:
        if why.status >= 500:
            raise
        return 0


# ---- changesets


async def changeset_created(call: Call, tags: dict[str, str], body: Spool | None) -> int:
    """The number of the new changeset."""
    user = call.user().id

    async def before() -> int:
        return max((row["id"] for row in await rows(call.ask("GET", "changesets", query))), default=0)

    async def found(known: int) -> list[Spool]:
        new = [row for row in await rows(seen(call, "changesets", query)) if row["id"] > known]
        mine = [row["id"] for row in new if row["tags"] == tags and not row["changes_count"]]
        if not mine:
            await refused()
        return [await call.sent([str(number)], always=True) for number in mine]

    async def refused() -> None:
        """Asks what is wrong with the tags, by a change of those of a changeset that isn't there."""
        try:
            await call.ask("PUT", f"changeset/{NOWHERE}", body=body)
        except InDoubt:
            pass
        except Refused as why:
            if why.status < 500 and why.status != 404:
                raise

    async def rows(reply: Awaitable[Spool]) -> list[Row]:
        listed: list[Row] = json.loads((await reply).whole())["changesets"]
        return listed

    query = {"user": str(user), "open": "true"}
    hint = "One that nobody uses is closed by itself in an hour: look at your changesets, and then you may try again."
    send = lambda: call.ask("PUT", "changeset/create", body=body)  # noqa: E731
    number = int((await Creation(("creations", user), before, send, found, hint).once(call)).whole())
    call.gateway.once.learn(number, 0)
    return number


# ---- notes


def noted(events: Iterator[Event], base: Path, found: list[tuple[Row, Row]]) -> Iterator[str]:
    """In turns: puts each note there, without its comments, and the first of these."""
    row: Row = {}
    first: Row = {}
    for sort, path, value in events:
        if path == base and sort is Sort.CLOSED:
            found.append((row, first))
            row, first = {}, {}
        elif path == (*base, "comments", "*"):
            first = first or value
        elif path[:-1] == base and sort is Sort.VALUE:
            row[path[-1]] = value
        yield ""


def says(comment: Row, action: str, text: str, user: int | None) -> bool:
    return (comment.get("action"), comment.get("text"), comment.get("uid")) == (action, text, user)


async def note_created(call: Call, row: Row, body: Spool, server: Links) -> Spool:
    """The answer to the creation of a note with that place and text, which the server takes."""
    caller = call.gateway.people.by_token.get(call.token or "")
    user = caller.id if caller else None
    place = ",".join(map(degrees_of, (row["lon7"], row["lat7"]) * 2))
    query = {"bbox": place, "closed": "true"}

    async def there(reply: Spool) -> list[tuple[Row, Row]]:
        pairs: list[tuple[Row, Row]] = []
        await call.work(noted(events_of(reply), ("notes", "*"), pairs))
        return pairs

    async def before() -> int:
        return max((note["id"] for note, _ in await there(await call.ask("GET", "notes", query, server=server))), default=0)

    async def found(known: int) -> list[Spool]:
        new = [pair for pair in await there(await seen(call, "notes", query, server)) if pair[0]["id"] > known]
        mine = [note["id"] for note, first in new if says(first, "opened", row["text"], user)]
        return [await seen(call, f"notes/{number}", server=server) for number in mine]

    send = lambda: call.ask("POST", "notes", body=body, server=server)  # noqa: E731
    key, hint = ("notes", user, row["lat7"], row["lon7"]), "Look whether the note is there before you send it again."
    return await Creation(key, before, send, found, hint).once(call)


WHAT = {"comment": "commented", "close": "closed", "reopen": "reopened"}


@dataclass
class Comments:
    """Of a note: how many there are, how many of those behind a number are the one that was sent, and the rest of the note."""

    wanted: tuple[str, str, int]
    behind: int
    count: int = 0
    mine: int = 0
    note: Row = field(default_factory=dict)

    def over(self, reply: Spool) -> Iterator[str]:
        for sort, path, value in events_of(reply):
            if path == ("note", "comments", "*"):
                self.count += 1
                self.mine += self.count > self.behind and says(value, *self.wanted)
            elif path[:1] == ("note",) and len(path) == 2 and sort is Sort.VALUE:
                self.note[path[1]] = value
            yield ""

    def refusal(self, what: str) -> Refused | None:
        """What the server says to it where it wasn't made, by the state in which the note is."""
        of = {"id": self.note["id"], "limit": COMMENTS, "closed_at": self.note.get("closed_at", "")}
        is_open = self.note["status"] == "open"
        error = "note_open" if is_open and what == "reopen" else "note_closed" if not is_open and what != "reopen" else None
        if error is None and self.count >= COMMENTS and what != "close":
            error = "note_full"
        return refusal(409, ENCODER.encode({"error": error, **of}).encode(), Asked()) if error else None


async def note_changed(call: Call, number: int, what: str, text: str, body: Spool, server: Links) -> Spool:
    """The answer to a comment, a closing or a reopening with a text that the server takes."""
    wanted, path = (WHAT[what], text, call.user().id), f"notes/{number}"

    async def comments(reply: Spool, behind: int) -> Comments:
        it = Comments(wanted, behind)
        await call.work(it.over(reply))
        return it

    async def before() -> int:
        return (await comments(await call.ask("GET", path, server=server), 0)).count

    async def found(known: int) -> list[Spool]:
        reply = await seen(call, path, server=server)
        it = await comments(reply, known)
        refused = it.refusal(what)
        if not it.mine and refused is not None:
            raise refused
        return [reply] * it.mine

    send = lambda: call.ask("POST", f"{path}/{what}", body=body, server=server)  # noqa: E731
    return await Creation(("note", number), before, send, found, "Look at the note before you send it again.").once(call)


__all__ = ["changeset_created", "note_changed", "note_created"]
