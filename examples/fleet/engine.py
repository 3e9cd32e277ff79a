"""What carries pieces from the writer to the carriers: an engine that keeps them, and wakes those who wait for more."""

from __future__ import annotations

import os
import secrets
import sys
from typing import Protocol

from feed import Taken

MOST = 512  # pieces that are read at once


class EngineLost(Exception):
    """The engine doesn't answer now."""


class Behind(Exception):
    """Somebody else has added pieces meanwhile."""


class Engine(Protocol):
    """Journals by their names, and which of them is the current one. Of each the pieces from 1 up, without gaps, each of them once.

    A journal that is begun anew has another name, so that nobody who reads the old one is given anything of it.
    """

    def check_keeping(self, is_trusted: bool) -> None:
        """Raises Unusable where what is added may not be on the disk when it is answered; what it doesn't tell may be trusted to be so."""

    def journal(self) -> str:
        """The current journal's name; empty where there never was one."""

    def begin(self, before: str) -> str:
        """Makes a new journal the current one unless another than `before` is it by now; answers the current one."""

    def ends(self, journal: str) -> Taken:
        """How many pieces it has, with the first and the last."""

    def piece(self, journal: str, number: int) -> bytes | None:
        ...

    def add(self, journal: str, number: int, pieces: list[bytes]) -> None:
        """Adds all of them, or none, behind piece `number`, which has to be the last one. They are on the disk then."""

    def after(self, journal: str, number: int, most: int, seconds: float) -> list[bytes]:
        """So many pieces behind that one at most, in order; where there are none it waits so long for news."""

    def close(self) -> None:
        ...


def new_name() -> str:
    return secrets.token_hex(8)


def open_engine(url: str) -> Engine:
    """`redis://HOST:PORT`, or `postgresql://..` as psycopg2 reads it."""
    sys.path.append(os.path.join(os.path.dirname(os.path.abspath(__file__)), ".."))
    from packages import need

    if url.startswith(("redis://", "rediss://")):
        need("redis")
        from redis_engine import RedisEngine

        return RedisEngine(url)
    need("psycopg2")
    from postgres_engine import PostgresEngine

    return PostgresEngine(url)
