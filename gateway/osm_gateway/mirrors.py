"""Mirrors that answer reads in the server's place, and which of them may answer whom.

Again and again the server is asked for the number of its last change, and each mirror for its own. A mirror that has the number which
the server had at some moment is level with that moment: it has all that was there then. It may answer a reader who wrote, or whom the
server answered, before that moment.
"""

from __future__ import annotations

import asyncio
import json
import math
import time
from collections import deque
from collections.abc import Awaitable, Callable
from contextlib import suppress
from functools import partial
from typing import TYPE_CHECKING, NamedTuple

from .floors import SEEN, WRITTEN, Floors, place_of
from .limits import guesser_of
from .links import Address, Link, Links, Lost, NoAnswer, NoReply, Reply, Request, head_of
from .log import tell, where
from .spool import Spool

if TYPE_CHECKING:
    from .call import Call

STATE = "/api/0.6/replication/state"
EVERY, QUICK = 0.1, 0.01
"""Seconds between two looks at a server's number; the second while somebody waits for a mirror."""
LOOKING, ANSWERING = 2.0, 30.0
"""Seconds that a mirror has for its number, and for a read, which the server is asked for behind that."""
OUT = 5.0
"""Seconds for which a mirror is left out that gave no answer."""
LAG = 10.0
"""A mirror is left out that isn't level with what the server had so many seconds before."""
PATIENCE = 1.0
"""Seconds for which a read waits for its mirror, before the server is asked."""
REMEMBERED = 3_000
"""Numbers of the server that are kept with their moments."""


class State(NamedTuple):
    number: int = 0
    stamp: str = ""


async def state_of(link: Link, ask: Callable[[Request], Awaitable[Reply]]) -> State:
    """What a server or a mirror says of its journal; Lost where it says nothing that can be read."""
    reply = await ask(Request("GET", head_of(link.address, "GET", STATE), None, Spool()))
    try:
        row = json.loads(reply.body.whole())
        return State(int(row["sequenceNumber"]), str(row["timestamp"]))
    except (ValueError, LookupError, TypeError):
        link.close()
        raise Lost(NoReply(f"it doesn't tell its number, but has the status {reply.status}"), asked=True, kept=False) from None
    finally:
        reply.body.close()


class CheckedLink(Link):
    """A link to a mirror. A new one may lead to a program that was started anew and is empty, so its number is asked first."""

    def __init__(self, mirror: Mirror, address: Address) -> None:
        super().__init__(address)
        self.mirror = mirror

    async def connect(self) -> bool:
        if await super().connect():
            return True
        found = await state_of(self, partial(self.exchange, kept=False))
        if found.number < self.mirror.most:
            self.close()
            raise Lost(ConnectionError("it has fewer changes than before"), asked=False, kept=False)
        return False


class Past:
    """The server's numbers, each with the last moment at which it was asked and had it."""

    def __init__(self) -> None:
        self.rows: deque[tuple[float, State]] = deque(maxlen=REMEMBERED)

    @property
    def last(self) -> tuple[float, State]:
        return self.rows[-1] if self.rows else (-math.inf, State())

    def note(self, moment: float, state: State) -> bool:
        """Whether its journal goes on; where it doesn't, all of before is forgotten."""
        before = self.last[1]
        goes_on = state.number > before.number or state == before or not self.rows
        if not goes_on:
            self.rows.clear()
        elif state == before and self.rows:
            self.rows.pop()
        self.rows.append((moment, state))
        return goes_on

    def level(self, number: int) -> float:
        """The last moment at which the server had no more than this."""
        return next((moment for moment, it in reversed(self.rows) if it.number <= number), -math.inf)


class Mirror:
    def __init__(self, address: Address, count: int) -> None:
        self.url = address.url
        self.links, self.link = Links("a mirror", address, count, tell, partial(CheckedLink, self), ANSWERING), Link(address)
        self.state, self.most, self.level, self.out_until = State(), 0, -math.inf, 0.0
        """What it told last, the highest number that is known of it, and with what moment it is level."""
        self.is_other = False
        """Whether it has another journal than the server."""
        self.told = ""

    def learn(self, found: State, past: Past) -> None:
        """One of another journal gets no pieces any longer, so where its number has moved it was started anew."""
        self.is_other = self.is_other and found == self.state
        self.state, server = found, past.last[1]
        if self.is_other or past.rows and found.number == server.number and found.stamp != server.stamp:
            self.differ()
            return
        self.level = past.level(found.number) if found.number >= self.most else -math.inf
        self.most = max(self.most, found.number)

    def differ(self) -> None:
        self.is_other, self.most, self.level = True, 0, -math.inf

    def why_out(self, past: Past) -> str:
        """Why it answers nobody now; empty where it may answer."""
        if time.monotonic() < self.out_until:
            return "it gave no answer"
        if self.is_other:
            return "it has another journal than the server"
        behind = self.level == -math.inf or past.last[0] - self.level > LAG
        return f"it isn't level with what the server had {LAG:.0f} seconds ago" if behind else ""

    def leave_out(self) -> None:
        self.out_until = time.monotonic() + OUT

    def close(self) -> None:
        self.links.close()
        self.link.close()


class Mirrors:
    def __init__(self, server: Links, addresses: tuple[Address, ...], count: int, floors: Floors) -> None:
        self.server, self.floors, self.past = server, floors, Past()
        self.link = Link(server.address)
        self.mirrors = [Mirror(address, count) for address in addresses]
        self.tasks: list[asyncio.Task[None]] = []
        self.waiting, self.hurry = 0, asyncio.Event()
        self.breaks = 0
        """How often the server gave no answer or had another journal: another one may stand at its address since."""

    # ---- looking

    def begin(self) -> None:
        looks: list[Callable[[], Awaitable[None]]] = [self.look_at_server, *(partial(self.look_at, it) for it in self.mirrors)]
        self.tasks = [asyncio.create_task(self.again(look)) for look in looks]
        for mirror in self.mirrors:
            mirror.links.rest()

    def close(self) -> None:
        for task in self.tasks:
            task.cancel()
        for mirror in self.mirrors:
            mirror.close()
        self.link.close()

    async def again(self, look: Callable[[], Awaitable[None]]) -> None:
        while True:
            try:
                await look()
            except Exception as why:
                tell(f"a look at a number failed: {where(why)}")
                await asyncio.sleep(1)
            if self.hurry.is_set():
                await asyncio.sleep(QUICK)
                continue
            with suppress(TimeoutError):
                async with asyncio.timeout(EVERY):
                    await self.hurry.wait()

    async def look_at_server(self) -> None:
        """Where it doesn't answer, mirrors go on by what it had last."""
        moment, before = time.monotonic(), [it.state.number for it in self.mirrors]
        try:
            async with asyncio.timeout(LOOKING):
                found = await state_of(self.link, self.link.ask)
        except (Lost, TimeoutError):
            self.breaks += 1
            return
        if not self.past.note(moment, found):
            self.breaks += 1
            tell(f"the server begins its journal anew, at {found.number} changes")
            for mirror in self.mirrors:
                mirror.most = 0
        for mirror, number in zip(self.mirrors, before):
            # What a mirror had before the server was asked, the server has too.
            if number > found.number and mirror.state.number == number:
                mirror.differ()

    async def look_at(self, mirror: Mirror) -> None:
        try:
            async with asyncio.timeout(LOOKING):
                mirror.learn(await state_of(mirror.link, mirror.link.ask), self.past)
        except (Lost, TimeoutError):
            mirror.leave_out()
        why = mirror.why_out(self.past)
        if self.past.rows and why != mirror.told:
            mirror.told = why
            tell(f"the mirror {mirror.url} {f'is left out: {why}' if why else 'answers reads'}")

    # ---- reading

    def is_level(self, mirror: Mirror, address: str, name: str | None) -> bool:
        """With all that this reader wrote, from here or by its name."""
        written = max(self.floors.of(key, WRITTEN) for key in keys_of(address, name))
        return not mirror.why_out(self.past) and mirror.level > written

    async def mirror_for(self, address: str, name: str | None) -> Mirror | None:
        """The one at which this address stays, where nothing that it has seen would be gone there."""
        mirror = self.mirrors[place_of(address) % len(self.mirrors)]
        if not self.is_level(mirror, address, name):
            return None
        if mirror.level <= self.floors.of(address, SEEN) and self.past.last[0] - mirror.level < PATIENCE:
            # To ask the server once more would only put this off, and who reads without a pause would never come back to the mirror.
            await self.wait(mirror, address)
        is_fit = self.is_level(mirror, address, name) and mirror.level > self.floors.of(address, SEEN)
        return mirror if is_fit else None

    async def wait(self, mirror: Mirror, address: str) -> None:
        until = time.monotonic() + PATIENCE
        self.waiting += 1
        self.hurry.set()
        try:
            while mirror.level <= self.floors.of(address, SEEN) and time.monotonic() < until:
                await asyncio.sleep(QUICK)
        finally:
            self.rested()

    async def have_all(self, count: int, seconds: float, breaks: int) -> bool:
        """Whether so many of them have all that the server has now, within so many seconds; no longer where it broke since `breaks`."""
        now = time.monotonic()
        self.waiting += 1
        self.hurry.set()
        try:
            while sum(it.level >= now for it in self.mirrors) < count:
                if time.monotonic() > now + seconds or self.breaks > breaks:
                    return False
                await asyncio.sleep(QUICK)
            return self.breaks == breaks
        finally:
            self.rested()

    def rested(self) -> None:
        """Nobody hurries for one who has waited."""
        self.waiting -= 1
        if not self.waiting:
            self.hurry.clear()

    async def ask(self, call: Call, token: str | None, method: str, target: str, body: Spool | None) -> Reply:
        """Of a mirror where one may answer, else of the server. What a change reads before and behind it is the server's."""
        address, name = guesser_of(call.request), call.caller.user.name if call.caller.user else None
        if call.request.method in ("GET", "HEAD"):
            mirror = await self.mirror_for(address, name)
            reply = await self.asked(mirror, call, token, target) if mirror is not None else None
            if call.gateway.counts is not None:
                call.gateway.counts.add("reads", mirror.url if mirror is not None and reply is not None else "map")
            if reply is not None:
                return reply
        try:
            return await self.server.ask(method, target, token, body, call.spool(always=method != "GET"))
        finally:
            self.floors.raise_to_now(address, SEEN)
            if method != "GET":
                for key in keys_of(address, name):
                    self.floors.raise_to_now(key, WRITTEN)

    async def asked(self, mirror: Mirror, call: Call, token: str | None, target: str) -> Reply | None:
        """None where the mirror can't answer."""
        spool = call.spool()
        try:
            reply = await mirror.links.ask("GET", target, token, None, spool)
            if reply.status < 500:
                return reply
        except NoAnswer:
            pass
        mirror.leave_out()
        spool.clear()
        return None


def keys_of(address: str, name: str | None) -> tuple[str, ...]:
    """Of somebody's writes: a reader may come from another address, or without a name."""
    return (address,) if name is None else (address, f"user {name}")
