"""Changes in a changeset, each made once and answered, also where the server's answer is lost.

The changes of a changeset go to the server one after another, and before each it is known how many the changeset has. Where an answer
is lost, the changeset is read: what stands behind that number was made since. A change that isn't there may have been refused, or be
on its way yet:

- one that is refused where it has been made already, as it names a version, is sent again;
- any other is sent with an operation more that can't be carried out: whatever else is refused of it, was refused;
- where nothing else is, and it isn't there after its time, the changeset is closed, which refuses it from then on, and read once more.
"""

from __future__ import annotations

import json
from collections.abc import Awaitable, Callable, Hashable, Iterator
from dataclasses import dataclass, field

from . import missing
from .call import Call
from .changes import ENCODER
from .doubts import Away, Doubt, seen, unknown
from .links import InDoubt
from .log import tell
from .made_again import Acts, Made, Row, Search, diff_result
from .refusals import Asked, Refused
from .spool import Spool
from .times import utc

NOWHERE = (1 << 63) - 1
"""An id that no element has: ids count up from 1."""


@dataclass(frozen=True)
class Change:
    """A change of elements as it goes to the server."""

    method: str
    path: str
    body: Spool
    asked: Asked
    begin: Callable[[], Acts]
    """Its operations, from the first on, as often as somebody likes."""
    upload: Callable[[], Iterator[str]]
    """An upload of the same, without the `]}` at its end."""
    answer: Callable[[list[Made], dict[tuple[str, int], int]], Iterator[str]] = diff_result

    @property
    def changeset(self) -> int:
        return self.asked.changeset

    async def send(self, call: Call) -> Spool:
        return await call.ask(self.method, self.path, body=self.body, asked=self.asked)


async def changeset_seen(call: Call, number: int) -> Row:
    """The changeset as the server has it; refused where it isn't the caller's."""
    row: Row = json.loads((await seen(call, f"changeset/{number}")).whole())["changeset"]
    if row["uid"] != call.user().id:
        raise Refused(409, "The user doesn't own that changeset")
    return row


async def made_once(call: Call, change: Change) -> Spool:
    """The server's answer to a change, or the same made again."""
    once, number = call.gateway.once, change.changeset
    async with once.alone(("changeset", number)):
        before = await known(call, number)
        once.learn(number, None)
        try:
            reply = await change.send(call)
        except InDoubt as why:
            tell(f"the answer to {change.method} {change.path} was lost: {why}")
            return await Lost(call, change, before, why).answer()
        except Refused as why:
            once.learn(number, before)
            raise await missing.with_all(call, why, change.begin()) from None
        operations = change.asked.operations
        once.learn(number, None if any(operations.skipped) else before + len(operations.ids))
        return reply


async def known(call: Call, number: int) -> int:
    """How many changes the changeset has, at least; of one that isn't there the change itself will be told."""
    count = call.gateway.once.counts.get(number)
    if count is not None or not 0 < number < 1 << 63:
        return count or 0
    try:
        return int((await call.value("GET", f"changeset/{number}"))["changeset"]["changes_count"])
    except Refused as why:
        if why.status >= 500:
            raise
        return 0


def unended(sent: Spool) -> Iterator[str]:
    """The text of an upload without its last two characters."""
    held = ""
    for text in sent.texts():
        held += text
        yield held[:-2]
        held = held[-2:]


@dataclass
class Lost:
    """A change whose answer didn't come."""

    call: Call
    change: Change
    before: int
    """The changes that its changeset had before it."""
    why: InDoubt
    refusal: Refused | None = None
    """What the server said when it was sent again."""
    doubt: Doubt = field(default_factory=Doubt)
    is_acceptable: bool = False
    """Whether the server would take it now."""

    async def answer(self) -> Spool:
        """Refused where it wasn't made, and where nobody knows."""
        while True:
            try:
                answer = await self.look() or await self.again()
                if answer is not None:
                    return answer
            except Away:
                pass
            if not await self.doubt.goes_on():
                raise self.unknown()

    async def look(self) -> Spool | None:
        """The answer, of what the changeset has now; None where the change isn't there. Refused where it never will be."""
        row = await changeset_seen(self.call, self.change.changeset)
        found = await self.found(row["changes_count"]) if row["changes_count"] > self.before else None
        if found is None:
            self.tell_unmade(row)
        return found

    def unknown(self) -> Refused:
        number = self.change.changeset
        return unknown(self.why, "this was made", f"Look at what the changeset {number} has before you send it again.")

    def tell_unmade(self, row: Row) -> None:
        """Refuses it where it wasn't made and never will be."""
        if self.refusal is not None:
            raise self.refusal
        if self.why.refused is not None:
            raise self.why.refused
        if not row["open"]:
            raise Refused(409, f"The changeset {row['id']} was closed at {utc(row['closed_at'])}")

    async def again(self) -> Spool | None:
        """Sends it again where that can't make it twice; else asks what is wrong with it, and closes the changeset once it had its time."""
        try:
            if self.change.asked.operations.can_come_again():
                return await self.change.send(self.call)
            if not self.is_acceptable:
                await self.probe()
            elif self.doubt.is_settled():
                tell(f"the changeset {self.change.changeset} is closed, since a change in it can't be found")
                await self.call.ask("PUT", f"changeset/{self.change.changeset}/close")
        except InDoubt:
            pass
        except Refused as why:
            self.is_acceptable = self.is_acceptable or why.said.get("id") == NOWHERE
            if why.status < 500 and not self.is_acceptable:
                self.refusal = why
        return None

    async def probe(self) -> None:
        """Sends it with an operation more that can't be carried out, so nothing is made of it: its refusal is the last operation's or its own."""
        last = {"type": "node", "id": NOWHERE, "version": 1, "changeset": self.change.changeset}

        def pieces() -> Iterator[str]:
            yield from self.change.upload()
            yield f',{{"delete":[{ENCODER.encode(last)}]}}]}}'

        body = await self.call.sent(pieces(), always=True)
        await self.call.ask("POST", f"changeset/{self.change.changeset}/upload", body=body, asked=self.change.asked)

    # ---- what is there

    async def found(self, count: int) -> Spool | None:
        """The answer, of the rows behind those that were there before; None where the change isn't among them."""
        download = await seen(self.call, f"changeset/{self.change.changeset}/download")
        try:
            return await self.searched(download, count)
        finally:
            download.close()

    async def searched(self, download: Spool, count: int) -> Spool | None:
        search = Search(self.change.begin, self.change.asked.operations, self.before)
        await self.call.work(search.exact(download))
        if not search.found:
            await self.call.work(search.anywhere(download))
        redacted = count - search.rows
        if not search.found and redacted > 0:
            # The download leaves redacted versions out, so what was there before takes fewer rows.
            search = Search(self.change.begin, self.change.asked.operations, max(self.before - redacted, 0))
            await self.call.work(search.anywhere(download))
        if len(search.found) > 1 or not search.found and (search.is_too_much or redacted > 0):
            raise self.unknown()
        return await self.written(search.found[0]) if search.found else None

    async def written(self, made: list[Made]) -> Spool:
        versions = await self.versions([(it.kind, it.new_id) for it in made if it.version is None])
        return await self.call.sent(self.change.answer(made, versions), always=True)

    async def versions(self, keys: list[tuple[str, int]]) -> dict[tuple[str, int], int]:
        """The current versions of what was skipped."""
        found: dict[tuple[str, int], int] = {}
        for kind in sorted({kind for kind, _ in keys}):
            ids = [str(number) for of, number in keys if of == kind]
            for start in range(0, len(ids), missing.MANY):
                reply = await seen(self.call, f"{kind}s", {f"{kind}s": ",".join(ids[start : start + missing.MANY])})
                found |= {(kind, row["id"]): row["version"] for row in json.loads(reply.whole())["elements"]}
        return found


# ---- what sets something, and does the same where it comes again


async def set_once(call: Call, key: Hashable, send: Callable[[], Awaitable[Spool]], look: Callable[[], Awaitable[Spool | None]]) -> Spool:
    """The answer of the server, or what `look` finds where it was lost; None says that it isn't set, so it is sent again."""
    async with call.gateway.once.alone(key):
        try:
            return await send()
        except InDoubt as why:
            lost = why
        refusal, doubt = lost.refused, Doubt()
        while True:
            try:
                answer = await look()
            except Away:
                pass
            else:
                if answer is not None:
                    return answer
                if refusal is not None:
                    raise refusal
                try:
                    return await send()
                except InDoubt:
                    pass
                except Refused as why:
                    refusal = why if why.status < 500 else None
            if not await doubt.goes_on():
                raise unknown(lost, "this was done", "Look whether it was before you send it again.")


async def retagged(call: Call, number: int, tags: Row, body: Spool) -> Spool:
    async def look() -> Spool | None:
        reply = await seen(call, f"changeset/{number}")
        return reply if json.loads(reply.whole())["changeset"]["tags"] == tags else None

    return await set_once(call, ("changeset", number), lambda: call.ask("PUT", f"changeset/{number}", body=body), look)


async def closed(call: Call, number: int) -> None:
    async def look() -> Spool | None:
        reply = await seen(call, f"changeset/{number}")
        row = json.loads(reply.whole())["changeset"]
        return reply if not row["open"] and row["uid"] == call.user().id else None

    await set_once(call, ("changeset", number), lambda: call.ask("PUT", f"changeset/{number}/close"), look)


async def redacted(call: Call, version: str, redaction: dict[str, str]) -> None:
    """`version` is KIND/ID/VERSION; without a redaction its mark is taken off."""
    wanted = int(redaction["redaction"]) if redaction else None

    async def look() -> Spool | None:
        reply = await seen(call, version, {"show_redactions": "true"})
        return reply if json.loads(reply.whole())["elements"][0].get("redaction") == wanted else None

    await set_once(call, ("version", version), lambda: call.ask("POST", f"{version}/redact", redaction), look)
