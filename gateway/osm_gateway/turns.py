"""Long work in short turns: one piece of it at a time, a few milliseconds each, and whoever waits goes in between."""

from __future__ import annotations

import asyncio
import time
from collections.abc import AsyncIterator, Iterable, Iterator

TURN = 0.004
"""Seconds after which a turn ends with the next piece."""
LOOKS = 4
"""Looks at the links between two turns: a small call takes a few steps, and shouldn't wait for a turn before each."""


class Turns:
    def __init__(self) -> None:
        self.lock = asyncio.Lock()

    async def parts(self, pieces: Iterable[str]) -> AsyncIterator[str]:
        """What the pieces are together, a turn's worth at a time."""
        rest, ended = iter(pieces), False
        while not ended:
            # One translation has a turn and then all others wait, however many there are.
            async with self.lock:
                part, ended = turn(rest)
                for _ in range(LOOKS if not ended else 0):
                    await asyncio.sleep(0)
            yield part


def turn(pieces: Iterator[str]) -> tuple[str, bool]:
    """A turn's worth of the pieces, and whether they have ended."""
    until, taken = time.monotonic() + TURN, []
    for piece in pieces:
        taken.append(piece)
        if time.monotonic() > until:
            return "".join(taken), False
    return "".join(taken), True
