"""Blocks of users, kept in the gateway's own file. Who is blocked reads as before, and changes nothing through this gateway."""

from __future__ import annotations

from typing import NamedTuple

from .people import User
from .refusals import Refused
from .store import Row, Store, now
from .times import moment_text


class Block(NamedTuple):
    """Moments are seconds since 1970. It holds until its end, and until its user has read it where `needs_view` is set."""

    id: int
    user: int
    creator: int
    created: int
    updated: int
    ends: int
    needs_view: bool
    revoker: int | None
    reason: str


COLUMNS = "id, user, creator, created, updated, ends, needs_view, revoker, reason"
ACTIVE = "(needs_view OR ends > ?)"
LISTED = 100


def block_of(row: Row) -> Block:
    return Block(*row)._replace(needs_view=bool(row[6]))


class Blocks:
    def __init__(self, store: Store) -> None:
        self.store = store

    def one(self, number: int) -> Block | None:
        row = self.store.one(f"SELECT {COLUMNS} FROM blocks WHERE id = ?", number)
        return block_of(row) if row else None

    def active(self, user: int) -> list[Block]:
        """The newest first."""
        rows = self.store.all(f"SELECT {COLUMNS} FROM blocks WHERE user = ? AND {ACTIVE} ORDER BY id DESC", user, now())
        return [block_of(row) for row in rows]

    def newest(self) -> list[Block]:
        return [block_of(row) for row in self.store.all(f"SELECT {COLUMNS} FROM blocks ORDER BY id DESC LIMIT {LISTED}")]

    def refuse(self, user: User, site: str = "") -> None:
        """With OSM's words, and behind them the address of the page that tells more, and the reason."""
        for it in self.active(user.id)[:1]:
            until = "until you have read it" if it.needs_view and it.ends <= now() else f"until {moment_text(it.ends)}"
            raise Refused(403, f"Your access to the API has been blocked, {until}, by {site}/user_blocks/{it.id}: {it.reason}")

    def counts(self, user: int, column: str = "user") -> tuple[int, int]:
        """How many blocks a user has got, or as `creator` given, and how many of them hold."""
        row = self.store.one(f"SELECT count(*), count(iif({ACTIVE}, 1, NULL)) FROM blocks WHERE {column} = ?", now(), user)
        return (int(row[0]), int(row[1])) if row else (0, 0)

    def add(self, user: int, creator: int, hours: int, needs_view: bool, reason: str) -> Block:
        at = now()
        self.store.do(
            "INSERT INTO blocks (user, creator, created, updated, ends, needs_view, reason) VALUES (?, ?, ?, ?, ?, ?, ?)",
            user, creator, at, at, at + 3600 * hours, int(needs_view), reason,
        )  # fmt: skip
        return block_of(self.store.all(f"SELECT {COLUMNS} FROM blocks WHERE user = ? ORDER BY id DESC LIMIT 1", user)[0])

    def viewed(self, number: int) -> None:
        self.store.do("UPDATE blocks SET needs_view = 0, updated = ? WHERE id = ? AND needs_view", now(), number)

    def revoke(self, number: int, revoker: int) -> None:
        """Ends it now."""
        at = now()
        self.store.do("UPDATE blocks SET needs_view = 0, ends = min(ends, ?), updated = ?, revoker = ? WHERE id = ?", at, at, revoker, number)
