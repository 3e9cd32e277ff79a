"""What filters ask of changesets, and what is remembered of those that are closed."""

from __future__ import annotations

import asyncio
import math
import struct
import time
from dataclasses import dataclass
from typing import NamedTuple

from .rows import Changeset
from .times import moment_of

LONGEST_OPEN = 86_400
"""Seconds behind its creation within which each changeset is closed."""
ROW = struct.Struct("<qqqiiii")
UNKNOWN, NO_EDGE = -1, -(1 << 31)
Edges = tuple[int, int, int, int]


class Facts(NamedTuple):
    """What filters ask of a changeset: its user, seconds since 1970, 0 of an open one's end, and the box where it has one."""

    user: int
    created: int
    closed: int
    edges: Edges | None

    @staticmethod
    def of(it: Changeset) -> Facts:
        edges = (it["minlon7"], it["minlat7"], it["maxlon7"], it["maxlat7"]) if "minlon7" in it else None
        return Facts(it["uid"], seconds_of(it["created_at"]), seconds_of(it["closed_at"]) if "closed_at" in it else 0, edges)


def seconds_of(text: str) -> int:
    return int(moment_of(text).timestamp())


@dataclass(frozen=True)
class Filters:
    """Those of OSM's interface; what isn't asked for is None or False."""

    user: int | None = None
    box: Edges | None = None
    is_open: bool = False
    is_closed: bool = False
    closed_since: float | None = None
    created_until: float | None = None
    created_since: float | None = None
    created_before: float | None = None

    def pass_on(self, it: Facts) -> bool:
        if self.user not in (None, it.user) or self.is_open and it.closed or self.is_closed and not it.closed:
            return False
        return self.pass_times(it) and self.meets(it.edges)

    def meets(self, edges: Edges | None) -> bool:
        """A changeset without a box meets none."""
        if self.box is None or edges is None:
            return self.box is None
        return edges[0] <= self.box[2] and self.box[0] <= edges[2] and edges[1] <= self.box[3] and self.box[1] <= edges[3]

    def pass_times(self, it: Facts) -> bool:
        if self.closed_since is not None and it.closed and it.closed < self.closed_since:
            return False
        return self.begins() <= it.created and not (
            self.created_until is not None and it.created > self.created_until or self.created_before is not None and it.created >= self.created_before
        )

    def begins(self) -> float:
        """Who was created before that can't pass. What is open now is closed by no moment to come."""
        return max(self.created_since or 0.0, min(self.closed_since or 0.0, time.time()) - LONGEST_OPEN)

    def ends(self) -> float:
        """Who was created behind that can't pass."""
        return min(math.inf if it is None else it for it in (self.created_until, self.created_before))


class Known:
    """What is remembered of closed changesets, by their numbers: 40 bytes each."""

    def __init__(self) -> None:
        self.rows, self.newest, self.lock = bytearray(), 0, asyncio.Lock()

    def get(self, number: int) -> Facts | None:
        end = ROW.size * number
        if end > len(self.rows):
            return None
        user, created, closed, *edges = ROW.unpack_from(self.rows, end - ROW.size)
        if user == UNKNOWN:
            return None
        return Facts(user, created, closed, None if edges[0] == NO_EDGE else (edges[0], edges[1], edges[2], edges[3]))

    def put(self, number: int, it: Facts) -> None:
        lacking = ROW.size * number - len(self.rows)
        if lacking > 0:
            self.rows.extend(ROW.pack(UNKNOWN, 0, 0, 0, 0, 0, 0) * (lacking // ROW.size))
        ROW.pack_into(self.rows, ROW.size * (number - 1), it.user, it.created, it.closed, *(it.edges or (NO_EDGE, 0, 0, 0)))
        self.newest = max(self.newest, number)

    def forget(self) -> None:
        self.rows, self.newest = bytearray(), 0
