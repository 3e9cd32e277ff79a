"""Notes beyond what the server of notes has calls for: more than a hundred of a box, a search of texts, the newest of all."""

from __future__ import annotations

import re
from collections.abc import Iterator
from dataclasses import dataclass, field
from datetime import datetime

from . import documents
from .call import Call, events_of
from .degrees import degrees_of, units_of
from .links import Links
from .refusals import Refused
from .rows import Note
from .spool import Spool
from .times import moment_of
from .walk import Path, Sort

LISTED, MOST = 100, 10_000
"""Notes in a reply of the server, and of a box in one of the gateway."""
ASKED = 400
"""Parts of a box that are asked for at most."""
WALKED = 2_000
"""Notes that a search without a box looks at, the newest first."""


async def counts_of(call: Call, reply: Spool, since: datetime | None) -> tuple[int, int]:
    """The notes of a reply, and how many of them weren't closed before that moment, counted in turns."""

    def reading() -> Iterator[str]:
        closed = ""
        for sort, path, value in events_of(reply):
            if path == (*documents.SOME, "closed_at"):
                closed = value
            elif path == documents.SOME and sort is Sort.CLOSED:
                yield "-" if since and closed and moment_of(closed) < since else "."
                closed = ""
            yield ""

    marks = "".join([part async for part in call.gateway.turns.parts(reading())])
    return len(marks), marks.count(".")


@dataclass(frozen=True)
class Asked:
    """Of a box: whether closed notes too, and since when; and how many."""

    closed: bool
    since: datetime | None
    limit: int


async def box_replies(call: Call, server: Links, box: str, asked: Asked) -> list[Spool]:
    """Replies with the notes of a box. Where there are more than the server lists, of its quarters, which have no edge in common."""
    boxes, full, parts, found = [[units_of(edge) for edge in box.split(",")]], list[Spool](), 0, 0
    while boxes and found < asked.limit and parts < ASKED:
        west, south, east, north = boxes.pop()
        query = {"bbox": ",".join(map(degrees_of, (west, south, east, north)))} | ({"closed": "true"} if asked.closed else {})
        reply, parts = await call.ask("GET", "notes", query, server=server), parts + 1
        count, passing = await counts_of(call, reply, asked.since)
        if count < LISTED or (west, south) == (east, north) or asked.limit <= min(passing, LISTED):
            full.append(reply)
            found += passing
            continue
        reply.close()
        x, y = (west + east) // 2, (south + north) // 2
        quarters = [[west, south, x, y], [x + 1, south, east, y], [west, y + 1, x, north], [x + 1, y + 1, east, north]]
        boxes += [it for it in quarters if it[0] <= it[2] and it[1] <= it[3]]
    return full


# ---- a search


@dataclass
class Seen:
    """What a search looks at of a note."""

    head: Note
    users: set[str] = field(default_factory=set)
    updated: str = ""
    words: set[str] = field(default_factory=set)
    """Those of the looked-for words that it has."""


def seen(reply: Spool, base: Path, words: list[str]) -> Iterator[Seen | None]:
    """Each note of a reply, and None for what is passed over on the way."""
    it = Seen({})  # type: ignore[typeddict-item]
    for sort, path, value in events_of(reply):
        if path == base and sort is Sort.CLOSED:
            yield it
            it = Seen({})  # type: ignore[typeddict-item]
        elif path == (*base, "comments", "*"):
            text = value["text"].casefold()
            it.words |= {word for word in words if word in text}
            it.users.add(value.get("user", ""))
            it.updated = value["date"]
        elif path[:-1] == base and sort is Sort.VALUE:
            it.head[path[-1]] = value  # type: ignore[literal-required]
        yield None


@dataclass(frozen=True)
class Wanted:
    """What a search asks for; moments are of the notes' beginnings or of their last comments, as `sort` says."""

    words: list[str]
    user: str | None
    since: datetime | None
    until: datetime | None
    closed_since: datetime | None
    with_closed: bool
    by_update: bool

    def moment(self, it: Seen) -> datetime:
        return moment_of(it.updated if self.by_update else it.head["date_created"])

    def has(self, it: Seen) -> bool:
        closed = it.head.get("closed_at")
        if closed is not None and (not self.with_closed or self.closed_since and moment_of(closed) < self.closed_since):
            return False
        if len(it.words) < len(self.words) or self.user is not None and self.user not in it.users:
            return False
        at = self.moment(it)
        return not (self.since and at < self.since or self.until and at >= self.until)


def moment(call: Call, name: str) -> datetime | None:
    text = call.query(name)
    if not text:
        return None
    try:
        return moment_of(text)
    except ValueError:
        raise Refused(400, f"Date {text[:100]} is in a wrong format") from None


def user_of(call: Call) -> str | None:
    """The name that the parameters ask for."""
    people, name, number = call.gateway.people, call.query("display_name"), call.query("user")
    if name is None and number is None:
        return None
    known = number is not None and re.fullmatch("[0-9]{1,19}", number)
    found = people.by_name.get(name) if name is not None else people.by_id.get(int(number or 0)) if known else None
    if found is None:
        raise Refused(404 if name is not None or known else 400, f"User {(name or number or '')[:100]} not known")
    return found.name


def wanted_of(call: Call, days: int, closed_since: datetime | None) -> Wanted:
    words = list(dict.fromkeys((call.query("q") or "").casefold().split()))
    for name, values in (("sort", ("created_at", "updated_at")), ("order", ("newest", "oldest"))):
        if call.query(name) not in (None, *values):
            raise Refused(400, f"The parameter {name} is {' or '.join(values)}")
    by_update = call.query("sort") != "created_at"
    return Wanted(words, user_of(call), moment(call, "from"), moment(call, "to"), closed_since, days != 0, by_update)


async def last_note(call: Call, server: Links) -> int:
    """The largest id: they go up by one. Looked for from the last known one on, in steps that double and then halve."""

    async def there(number: int) -> bool:
        try:
            (await call.ask("GET", f"notes/{number}", server=server)).close()
            return True
        except Refused as why:
            if why.status != 404:
                raise
            return False

    low, step = call.gateway.last_note, 1
    while await there(low + step):
        low, step = low + step, step * 2
    high = low + step
    while high - low > 1:
        middle = (low + high) // 2
        low, high = (middle, high) if await there(middle) else (low, middle)
    call.gateway.last_note = low
    return low


async def matches(call: Call, reply: Spool, base: Path, wanted: Wanted) -> list[Seen]:
    """The notes of a reply that are asked for, read in turns."""
    found: list[Seen] = []

    def reading() -> Iterator[str]:
        for it in seen(reply, base, wanted.words):
            if it is not None and wanted.has(it):
                found.append(it)
            yield ""

    async for _ in call.gateway.turns.parts(reading()):
        pass
    return found


async def searched(call: Call, server: Links, box: str | None, wanted: Wanted, limit: int) -> list[int]:
    """The ids of the notes that are asked for, in the order that is asked for."""
    found: dict[int, Seen] = {}
    if box is not None:
        for reply in await box_replies(call, server, box, Asked(wanted.with_closed, wanted.closed_since, MOST)):
            found |= {it.head["id"]: it for it in await matches(call, reply, documents.SOME, wanted)}
            reply.close()
    else:
        last = await last_note(call, server)
        for number in range(last, max(0, last - WALKED), -1):
            reply = await call.ask("GET", f"notes/{number}", server=server)
            found |= {number: it for it in await matches(call, reply, documents.ONE, wanted)}
            reply.close()
            if len(found) >= limit and not wanted.by_update and call.query("order") != "oldest":
                break
    rows = sorted(found.values(), key=lambda it: (wanted.moment(it), it.head["id"]), reverse=call.query("order") != "oldest")
    return [it.head["id"] for it in rows[:limit]]
