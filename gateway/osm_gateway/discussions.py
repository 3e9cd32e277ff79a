"""Discussions of changesets and who follows them, kept in the gateway's own file. Nobody is written to."""

from __future__ import annotations

from typing import NamedTuple

from .people import People
from .store import Row, Store, now
from .times import moment_text


class Remark(NamedTuple):
    """A comment on a changeset."""

    id: int
    changeset: int
    uid: int
    user: str
    date: str
    text: str
    visible: bool


COLUMNS = "id, changeset, user, at, text, visible"


class Discussions:
    def __init__(self, store: Store, people: People) -> None:
        self.store, self.people = store, people

    def remark(self, row: Row) -> Remark:
        user = self.people.by_id.get(row[2])
        return Remark(row[0], row[1], row[2], user.name if user else f"user_{row[2]}", moment_text(row[3]), row[4], bool(row[5]))

    def of(self, changeset: int, hidden: bool = False) -> list[Remark]:
        """The oldest first; hidden ones where they are asked for."""
        words = f"SELECT {COLUMNS} FROM comments WHERE changeset = ? AND (visible OR ?) ORDER BY id"
        return [self.remark(row) for row in self.store.all(words, changeset, hidden)]

    def newest(self, count: int) -> list[Remark]:
        return [self.remark(row) for row in self.store.all(f"SELECT {COLUMNS} FROM comments WHERE visible ORDER BY id DESC LIMIT ?", count)]

    def one(self, number: int) -> Remark | None:
        row = self.store.one(f"SELECT {COLUMNS} FROM comments WHERE id = ?", number)
        return self.remark(row) if row else None

    def count(self, changeset: int) -> int:
        """How many comments are shown of a changeset."""
        row = self.store.one("SELECT count(*) FROM comments WHERE changeset = ? AND visible", changeset)
        return int(row[0]) if row else 0

    def say(self, changeset: int, user: int, text: str) -> None:
        """A comment, and whoever made it follows the discussion."""
        self.store.do_all((
            ("INSERT INTO comments (changeset, user, at, text) VALUES (?, ?, ?, ?)", (changeset, user, now(), text)),
            ("INSERT OR IGNORE INTO subscriptions VALUES (?, ?)", (changeset, user)),
        ))  # fmt: skip

    def show(self, number: int, visible: bool) -> bool:
        """Hides a comment or shows it again; False where there is none."""
        return self.store.do("UPDATE comments SET visible = ? WHERE id = ?", int(visible), number) > 0

    def follow(self, changeset: int, user: int) -> bool:
        """False where the user did already."""
        return self.store.do("INSERT OR IGNORE INTO subscriptions VALUES (?, ?)", changeset, user) > 0

    def leave(self, changeset: int, user: int) -> bool:
        """False where the user didn't follow it."""
        return self.store.do("DELETE FROM subscriptions WHERE changeset = ? AND user = ?", changeset, user) > 0
