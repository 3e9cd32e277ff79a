"""The gateway's own file, of sqlite3: what neither server keeps. Without a file it is in memory, and lost at the end."""

from __future__ import annotations

import sqlite3
import time
from collections.abc import Iterable
from typing import Any

from .refusals import Refused

TABLES = """
CREATE TABLE IF NOT EXISTS applications (id TEXT PRIMARY KEY, secret TEXT, name TEXT NOT NULL, redirects TEXT NOT NULL,
    scopes TEXT NOT NULL, owner INTEGER NOT NULL, made INTEGER NOT NULL) STRICT;
CREATE TABLE IF NOT EXISTS codes (hash TEXT PRIMARY KEY, application TEXT NOT NULL, user INTEGER NOT NULL, redirect TEXT NOT NULL,
    scopes TEXT NOT NULL, challenge TEXT, until INTEGER NOT NULL, used INTEGER NOT NULL DEFAULT 0) STRICT;
CREATE TABLE IF NOT EXISTS tokens (hash TEXT PRIMARY KEY, application TEXT NOT NULL, user INTEGER NOT NULL, bound TEXT NOT NULL,
    scopes TEXT NOT NULL, code TEXT, made INTEGER NOT NULL) STRICT;
CREATE INDEX IF NOT EXISTS tokens_of_code ON tokens (code);
CREATE INDEX IF NOT EXISTS tokens_of_user ON tokens (user);
CREATE TABLE IF NOT EXISTS preferences (user INTEGER NOT NULL, key TEXT NOT NULL, value TEXT NOT NULL, PRIMARY KEY (user, key)) STRICT;
CREATE TABLE IF NOT EXISTS comments (id INTEGER PRIMARY KEY AUTOINCREMENT, changeset INTEGER NOT NULL, user INTEGER NOT NULL,
    at INTEGER NOT NULL, text TEXT NOT NULL, visible INTEGER NOT NULL DEFAULT 1) STRICT;
CREATE INDEX IF NOT EXISTS comments_of_changeset ON comments (changeset, id);
CREATE TABLE IF NOT EXISTS subscriptions (changeset INTEGER NOT NULL, user INTEGER NOT NULL, PRIMARY KEY (changeset, user)) STRICT;
CREATE TABLE IF NOT EXISTS note_subscriptions (note INTEGER NOT NULL, user INTEGER NOT NULL, PRIMARY KEY (note, user)) STRICT;
CREATE TABLE IF NOT EXISTS blocks (id INTEGER PRIMARY KEY AUTOINCREMENT, user INTEGER NOT NULL, creator INTEGER NOT NULL,
    created INTEGER NOT NULL, updated INTEGER NOT NULL, ends INTEGER NOT NULL, needs_view INTEGER NOT NULL, revoker INTEGER,
    reason TEXT NOT NULL) STRICT;
CREATE INDEX IF NOT EXISTS blocks_of_user ON blocks (user);
CREATE TABLE IF NOT EXISTS hidden_notes (id INTEGER PRIMARY KEY, user INTEGER NOT NULL, at INTEGER NOT NULL) STRICT;
CREATE TABLE IF NOT EXISTS highest_user (one INTEGER PRIMARY KEY CHECK (one = 1), id INTEGER NOT NULL) STRICT;
"""
"""Moments are seconds since 1970; `secret`, `hash` and `code` are SHA-256 of what a caller shows, so the file gives no token away."""

Row = tuple[Any, ...]


class BadStore(Exception):
    """The file can't be opened, or is none of the gateway's."""


class Store:
    def __init__(self, path: str = "") -> None:
        try:
            self.base = sqlite3.connect(path or ":memory:", isolation_level=None, timeout=5)
            self.base.execute("PRAGMA journal_mode=WAL")
            self.base.execute("PRAGMA synchronous=FULL")
            self.base.executescript(TABLES)
        except sqlite3.Error as why:
            raise BadStore(f"{path}: {why}") from None

    def close(self) -> None:
        self.base.close()

    def all(self, words: str, *values: Any) -> list[Row]:
        try:
            return self.base.execute(words, values).fetchall()
        except sqlite3.Error as why:
            raise self.failed(why) from None

    def one(self, words: str, *values: Any) -> Row | None:
        rows = self.all(words, *values)
        return rows[0] if rows else None

    def do(self, words: str, *values: Any) -> int:
        """Changes something, on the disk when this returns; how many rows it was."""
        return self.do_all([(words, values)])

    def do_all(self, changes: Iterable[tuple[str, tuple[Any, ...]]]) -> int:
        """All of these changes or none; how many rows they were."""
        try:
            self.base.execute("BEGIN IMMEDIATE")
            try:
                count = sum(self.base.execute(words, values).rowcount for words, values in changes)
                self.base.execute("COMMIT")
                return count
            except BaseException:
                self.base.execute("ROLLBACK")
                raise
        except sqlite3.Error as why:
            raise self.failed(why) from None

    def failed(self, why: sqlite3.Error) -> Refused:
        return Refused(503, f"The gateway's own file can't be used at the moment, nothing was done: {why}")


def now() -> int:
    return int(time.time())
