"""PostgreSQL as the engine: a row for each piece, whose key refuses a repeat, and NOTIFY for those who wait."""

from __future__ import annotations

import select
import time
from collections.abc import Iterator
from contextlib import contextmanager
from typing import Any

import psycopg2
import psycopg2.errors
import psycopg2.extras

from engine import MOST, Behind, EngineLost, new_name
from feed import Taken, Unusable

TABLES = """
create table if not exists hegunsap_journal (is_current boolean primary key check (is_current), name text not null);
create table if not exists hegunsap_piece (
    journal text, number bigint check (number > 0), body bytea not null, primary key (journal, number)
);
"""
CHANNEL = "hegunsap_pieces"


@contextmanager
def asked() -> Iterator[None]:
    try:
        yield
    except psycopg2.Error as why:
        raise EngineLost(f"postgresql: {' '.join(str(why).split())}") from why


class PostgresEngine:
    def __init__(self, url: str) -> None:
        with asked():
            self.link: Any = psycopg2.connect(url)
            self.link.autocommit = True
            self.rows("select pg_advisory_lock(hashtext('hegunsap'))")  # two that begin at once would both make the tables
            self.rows(TABLES + "select pg_advisory_unlock(hashtext('hegunsap'))")
            self.rows(f"listen {CHANNEL}; select 1")

    def check_keeping(self, is_trusted: bool) -> None:
        with asked():
            kept = self.rows("select current_setting('fsync'), current_setting('synchronous_commit')")[0]
        if kept[0] != "on" or kept[1] == "off":
            raise Unusable("postgresql doesn't bring each piece to the disk before it answers: fsync and synchronous_commit have to be on")

    def rows(self, query: str, *values: object) -> list[Any]:
        with self.link.cursor() as cursor:
            cursor.execute(query, values)
            found: list[Any] = cursor.fetchall()
            return found

    def journal(self) -> str:
        with asked():
            found = self.rows("select name from hegunsap_journal")
        return str(found[0][0]) if found else ""

    def begin(self, before: str) -> str:
        query = "insert into hegunsap_journal values (true, %s) on conflict (is_current) do update"
        with asked():
            self.rows(f"{query} set name = excluded.name where hegunsap_journal.name = %s returning name", new_name(), before)
        return self.journal()

    def ends(self, journal: str) -> Taken:
        with asked():
            found = self.rows("select max(number) from hegunsap_piece where journal = %s", journal)
        number = found[0][0] or 0
        first, last = self.piece(journal, 1), self.piece(journal, number)
        return Taken(number, first, last) if first and last else Taken()

    def piece(self, journal: str, number: int) -> bytes | None:
        with asked():
            found = self.rows("select body from hegunsap_piece where journal = %s and number = %s", journal, number)
        return bytes(found[0][0]) if found else None

    def add(self, journal: str, number: int, pieces: list[bytes]) -> None:
        """In one transaction, which the key refuses whole where one of them is there. Whoever adds knows that `number` is there."""
        rows = [(journal, place, psycopg2.Binary(piece)) for place, piece in enumerate(pieces, number + 1)]
        with asked():
            self.link.autocommit = False
            try:
                with self.link, self.link.cursor() as cursor:
                    psycopg2.extras.execute_values(cursor, "insert into hegunsap_piece values %s", rows, page_size=MOST)
                    cursor.execute(f"notify {CHANNEL}")
            except psycopg2.errors.UniqueViolation as why:
                raise Behind from why
            finally:
                if not self.link.closed:
                    self.link.autocommit = True

    def after(self, journal: str, number: int, most: int, seconds: float) -> list[bytes]:
        until = time.monotonic() + seconds
        query = "select number, body from hegunsap_piece where journal = %s and number > %s order by number limit %s"
        with asked():
            while not (found := self.rows(query, journal, number, most)):
                self.link.poll()
                if not self.link.notifies and not select.select([self.link], [], [], max(0.0, until - time.monotonic()))[0]:
                    return []
                self.link.poll()
                self.link.notifies.clear()
        if found[0][0] != number + 1 or found[-1][0] != number + len(found):
            raise Unusable(f"the journal {journal} has pieces {found[0][0]} to {found[-1][0]} behind {number}, with gaps")
        return [bytes(row[1]) for row in found]

    def close(self) -> None:
        self.link.close()
