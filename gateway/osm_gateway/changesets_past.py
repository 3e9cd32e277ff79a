"""Changesets behind the newest hundred that the server lists: read by their numbers, which rise with the moments of their creation.

What filters ask of a closed one is remembered, since it never changes again. So a search that takes too long gets further when it is tried
again, and a later one reads little but what it answers.
"""

from __future__ import annotations

import asyncio
import math
import time
from collections.abc import Iterable

from .call import Call
from .changesets_known import Facts, Filters
from .refusals import Refused
from .rows import Changeset

SECONDS, TURN = 8.0, 1000
"""How long a search may read, and behind how many remembered changesets others have their turn."""


class Search:
    """One call's reading of changesets that are older than a number."""

    def __init__(self, call: Call, filters: Filters) -> None:
        self.call, self.filters, self.known = call, filters, call.gateway.known_changesets
        self.until, self.count = 0.0, 0

    async def found(self, below: int, most: int, is_oldest_first: bool) -> list[Changeset]:
        """So many that pass at most, in that order, of those whose numbers are lower."""
        try:
            async with asyncio.timeout(SECONDS):
                await self.known.lock.acquire()
        except TimeoutError:
            raise self.too_long() from None
        self.until = time.monotonic() + SECONDS
        try:
            await self.check()
            numbers = range(await self.first_since(self.filters.begins(), below), await self.first_since(self.filters.ends() + 1, below))
            return await self.passing(numbers if is_oldest_first else reversed(numbers), most)
        finally:
            self.known.lock.release()

    async def check(self) -> None:
        """Forgets all where the server has begun anew, and so has another changeset under a number."""
        newest = self.known.newest
        known = self.known.get(newest) if newest else None
        if known is not None:
            try:
                is_same = Facts.of(await self.read(newest)) == known
            except Refused as why:
                if why.status != 404:
                    raise
                is_same = False
            if not is_same:
                self.known.forget()

    async def first_since(self, moment: float, below: int) -> int:
        """The lowest number of one that was created then or later; `below` where there is none."""
        if not 0 < moment < math.inf:
            return below if moment > 0 else 1
        low, high = 1, below
        while low < high:
            middle = (low + high) // 2
            if (await self.facts(middle)).created >= moment:
                high = middle
            else:
                low = middle + 1
        return low

    async def passing(self, numbers: Iterable[int], most: int) -> list[Changeset]:
        found: list[Changeset] = []
        for place, number in enumerate(numbers):
            if len(found) == most:
                break
            if place % TURN == TURN - 1:
                await asyncio.sleep(0)
            known, row = self.known.get(number), None
            if known is None:
                row = await self.read(number)
                known = Facts.of(row)
            if self.filters.pass_on(known):
                found.append(row or await self.read(number))
        return found

    async def facts(self, number: int) -> Facts:
        return self.known.get(number) or Facts.of(await self.read(number))

    async def read(self, number: int) -> Changeset:
        if time.monotonic() > self.until:
            raise self.too_long()
        it: Changeset = (await self.call.value("GET", f"changeset/{number}"))["changeset"]
        self.count += 1
        facts = Facts.of(it)
        if facts.closed:
            self.known.put(number, facts)
        return it

    def too_long(self) -> Refused:
        return Refused(503, f"Older changesets are being read, {self.count} of them for this search. It gets further when it is tried again")
