"""Changes of which it isn't known whether they were made.

A change whose answer was lost is looked for by reading: what is found is answered as if the answer had come. Where it can't be found
out the status is 424, which no client tries again by itself; 503 with Retry-After is for what wasn't done.
"""

from __future__ import annotations

import asyncio
import time
from collections import OrderedDict
from collections.abc import AsyncIterator, Hashable
from contextlib import asynccontextmanager
from dataclasses import dataclass, field
from typing import TYPE_CHECKING

from .links import InDoubt, Links
from .processes import Shared
from .refusals import Refused
from .spool import Spool

if TYPE_CHECKING:
    from .call import Call

SETTLED = 3.0
"""Seconds behind which a change that isn't there isn't waited for any longer."""
DOUBTED = 20.0
"""Seconds in which a server that can't be asked may come back. JOSM waits for ever, python3-osmapi for 30 seconds."""
FIRST_PAUSE, LONGEST_PAUSE = 0.02, 1.0
COUNTS = 10_000
"""Changesets whose number of changes is remembered."""


def unknown(why: InDoubt, what: str, look: str) -> Refused:
    """That nobody knows, and what to do. Below 500 and without Retry-After, so that nothing tries it again by itself."""
    return Refused(424, f"It isn't known whether {what}: {why.server} gave no answer to it. {look}")


class Away(Exception):
    """The server can't be asked now."""


async def seen(call: Call, path: str, query: dict[str, str] | None = None, server: Links | None = None) -> Spool:
    """What a read gives. A refusal of the server is one; Away where none comes."""
    try:
        return await call.ask("GET", path, query, server=server)
    except Refused as why:
        if why.status < 500:
            raise
        raise Away from None


@dataclass
class Doubt:
    """How long somebody looks for what was lost."""

    begun: float = field(default_factory=time.monotonic)
    pause: float = FIRST_PAUSE

    def is_settled(self) -> bool:
        return time.monotonic() - self.begun > SETTLED

    async def goes_on(self) -> bool:
        """Waits a little, longer from time to time; whether there is time for another look."""
        if time.monotonic() - self.begun > DOUBTED:
            return False
        await asyncio.sleep(self.pause)
        self.pause = min(2 * self.pause, LONGEST_PAUSE)
        return True


@dataclass
class Once:
    """Who has to wait for whom, so that what one reads behind a doubt is its own; and what is known of changesets."""

    locks: dict[Hashable, tuple[asyncio.Lock, int]] = field(default_factory=dict)
    counts: OrderedDict[int, int] = field(default_factory=OrderedDict)
    """How many changes a changeset had behind the last one that went through here; others may have made more since."""
    shared: Shared | None = None
    """Locks among several processes, which then don't remember what others may have changed."""

    @asynccontextmanager
    async def alone(self, key: Hashable) -> AsyncIterator[None]:
        """One at a time for each key, in the order of coming."""
        lock, users = self.locks.get(key) or (asyncio.Lock(), 0)
        self.locks[key] = lock, users + 1
        try:
            async with lock:
                if self.shared is not None:
                    await self.shared.take(key)
                try:
                    yield
                finally:
                    if self.shared is not None:
                        self.shared.give(key)
        finally:
            lock, users = self.locks[key]
            if users == 1:
                del self.locks[key]
            else:
                self.locks[key] = lock, users - 1

    def learn(self, changeset: int, count: int | None) -> None:
        """None where it isn't known any longer."""
        self.counts.pop(changeset, None)
        if count is not None and self.shared is None:
            self.counts[changeset] = count
            if len(self.counts) > COUNTS:
                self.counts.popitem(last=False)
