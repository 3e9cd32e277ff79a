"""The file of the users text: read at the start and again at SIGHUP, written by the page of users."""

from __future__ import annotations

import asyncio
import fcntl
import os
import signal
import stat
import time
from collections.abc import Iterator
from contextlib import contextmanager, suppress
from dataclasses import dataclass

from .folders import sync_folder
from .log import tell
from .people import BadUsers, People, people_of
from .processes import Columns
from .refusals import Refused
from .store import Store

CHANGED = "The users text has changed, so nothing was done"
LOCKING, PAUSE = 5.0, 0.01
READING = 5.0
"""Seconds for another one who writes, and for all processes to read what was written."""
RIGHTS = "system.posix_acl_access"
SEEN = """SELECT max(id) FROM (SELECT id FROM highest_user UNION ALL SELECT max(user) FROM preferences UNION ALL SELECT max(user) FROM comments
    UNION ALL SELECT max(user) FROM subscriptions UNION ALL SELECT max(user) FROM note_subscriptions UNION ALL SELECT max(user) FROM blocks
    UNION ALL SELECT max(creator) FROM blocks UNION ALL SELECT max(user) FROM hidden_notes UNION ALL SELECT max(owner) FROM applications
    UNION ALL SELECT max(user) FROM tokens)"""
"""The highest id of a user that the gateway's own file has something of, or has had in a text."""


@dataclass(frozen=True)
class Found:
    """A users text as it was read, and what tells another one at its place."""

    data: bytes
    stamp: str
    like: os.stat_result

    @staticmethod
    def at(path: str) -> Found:
        with open(path, "rb") as file:
            it = os.fstat(file.fileno())
            return Found(file.read(), f"{it.st_ino:x}-{it.st_mtime_ns:x}-{it.st_size:x}", it)

    def text(self) -> str:
        try:
            return self.data.decode("utf-8")
        except UnicodeDecodeError as why:
            raise BadUsers(str(why)) from None


def read_people(path: str) -> People:
    try:
        return people_of(Found.at(path).text())
    except OSError as why:
        raise BadUsers(f"the users text can't be read: {why}") from None
    except BadUsers as why:
        raise BadUsers(f"{path}: {why}") from None


# ---- writing it


@contextmanager
def locked(path: str) -> Iterator[None]:
    """Waits for others who write. The file stays, since whoever waits has it open."""
    file = os.open(path, os.O_RDWR | os.O_CREAT | os.O_CLOEXEC | os.O_NOFOLLOW, 0o600)
    until = time.monotonic() + LOCKING
    try:
        while True:
            try:
                fcntl.flock(file, fcntl.LOCK_EX | fcntl.LOCK_NB)
                break
            except BlockingIOError:
                if time.monotonic() > until:
                    raise TimeoutError("somebody else has been writing it for too long") from None
                time.sleep(PAUSE)
        yield
    finally:
        os.close(file)


def rights_of(path: str) -> list[bytes]:
    """The list of rights beside the mode, where there is one."""
    try:
        return [os.getxattr(path, RIGHTS)]
    except OSError:
        return []


def write_like(path: str, data: bytes, old: str, like: os.stat_result) -> None:
    """A new file with the owner, the mode and the list of rights of the old one, on the disk."""
    with suppress(FileNotFoundError):
        os.unlink(path)
    with open(os.open(path, os.O_WRONLY | os.O_CREAT | os.O_EXCL | os.O_CLOEXEC, 0o600), "wb") as file:
        own = os.fstat(file.fileno())
        if (own.st_uid, own.st_gid) != (like.st_uid, like.st_gid):  # else it isn't called, as a service may be kept from that
            os.fchown(file.fileno(), like.st_uid, like.st_gid)
        os.fchmod(file.fileno(), stat.S_IMODE(like.st_mode))
        for rights in rights_of(old):
            os.setxattr(file.fileno(), RIGHTS, rights)
        file.write(data)
        file.flush()
        os.fsync(file.fileno())


def replace_text(path: str, before: Found, data: bytes) -> None:
    """Puts the new text in the place of the one that was read, or changes nothing."""
    path = os.path.realpath(path)
    new = f"{path}.new"
    with locked(f"{path}.lock"):
        try:
            write_like(new, data, path, before.like)
            if Found.at(path).data != before.data:
                raise Refused(409, CHANGED)
            os.rename(new, path)
        except BaseException:
            with suppress(OSError):
                os.unlink(new)
            raise
        try:
            sync_folder(os.path.dirname(path))
        except OSError as why:
            tell(f"the users text was written, but its folder can't be synced: {why}")


# ---- the text in all processes


class UsersFile:
    """`reads` has when each process read the text last, and `parent` is that of several processes, which hands on SIGHUP."""

    def __init__(self, path: str, people: People, store: Store, reads: Columns, parent: int | None) -> None:
        self.path, self.people, self.store, self.reads, self.parent = path, people, store, reads, parent
        self.remember()

    def remember(self) -> None:
        try:
            values = (self.people.highest,)
            self.store.do("INSERT INTO highest_user VALUES (1, ?) ON CONFLICT (one) DO UPDATE SET id = max(id, excluded.id)", *values)
        except Refused as why:
            tell(f"the highest id of the users text isn't kept: {why.text}")

    def highest(self) -> int:
        """The highest id that a user had, as far as is known beside the text."""
        row = self.store.one(SEEN)
        return max(self.people.highest, int(row[0] or 0) if row else 0)

    def read_again(self) -> None:
        """At SIGHUP. A text that can't be read changes nothing."""
        moment = time.monotonic()
        try:
            tell(f"the users text was read again, with {self.people.take(read_people(self.path))}")
        except BadUsers as why:
            tell(f"the users are those of before: {why}")
            return
        self.remember()
        self.reads.own[0] = moment

    async def read_everywhere(self) -> bool:
        """Has each process read it again; whether all have in time."""
        moment = time.monotonic()
        if self.parent is not None and os.getppid() == self.parent:
            os.kill(self.parent, signal.SIGHUP)
        else:
            self.read_again()
        while any(column[0] < moment for column in self.reads.all):
            if time.monotonic() > moment + READING:
                return False
            await asyncio.sleep(PAUSE)
        return True

    def found(self) -> Found:
        try:
            return Found.at(self.path)
        except OSError as why:
            raise Refused(503, f"The users text can't be read: {why.strerror or why}") from None

    async def write(self, before: Found, text: str) -> bool:
        """Writes the text in place of the one that was read; whether all processes have read it."""
        try:
            await asyncio.to_thread(replace_text, self.path, before, text.encode())
        except OSError as why:
            tell(f"the users text can't be written: {why}")
            raise Refused(503, f"The users text can't be written, so nothing was changed: {why.strerror or why}") from None
        return await self.read_everywhere()
