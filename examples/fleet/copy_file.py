"""A copy of a journal's file on the disk of its keeper (docs/JOURNAL.md, "A copy of a file")."""

from __future__ import annotations

import fcntl
import os
import re
import stat
from collections.abc import Iterable, Iterator
from itertools import chain

PIECE = 1 << 20  # bytes that are read and written at once
STEP = 1 << 24  # bytes behind which a long addition is synced, so that the sync at its end doesn't take long
MOST = 1 << 30  # bytes of one write, and zeros that are added at once
FRONT = 1 << 16  # bytes that have the first line, the empty ones behind it and what follows them
ZEROS = bytes(PIECE)
OTHER = re.compile(rb"\n[^{\n]")  # where a line begins that no journal has


class Refused(Exception):
    """Why something isn't taken; nothing of it was done."""


class Text:
    """Where the whole lines end that stand at the front of a file, which is shown piece by piece."""

    def __init__(self) -> None:
        self.end = self.seen = 0
        self.has_ended = False
        self.before = b""

    def see(self, piece: bytes) -> None:
        # A line with a byte 0 isn't whole, and what stands behind one that isn't doesn't count.
        whole = piece.partition(b"\0")[0]
        if found := OTHER.search(self.before + whole):
            whole = whole[: found.start() + 1 - len(self.before)]
        if (last := whole.rfind(b"\n")) >= 0:
            self.end = self.seen + last + 1
        self.has_ended = len(whole) < len(piece)
        self.before = piece[-1:]
        self.seen += len(piece)


def alike(one: bytes, other: bytes) -> int:
    """How many bytes they begin with that are the same."""
    least, most = 0, min(len(one), len(other))
    while least < most:
        middle = (least + most + 1) // 2
        least, most = (middle, most) if one[:middle] == other[:middle] else (least, middle - 1)
    return least


def behind_header(front: bytes) -> bytes:
    """What stands behind the first line, and the empty ones that follow it, of a file that begins so."""
    return front.partition(b"\n")[2].lstrip(b"\n")


def has_changes(front: bytes) -> bool:
    return behind_header(front).startswith(b"{")


def front_of(pieces: Iterator[bytes]) -> bytes:
    """Those that tell whether the file has changes."""
    front = b""
    while len(front) < FRONT and not behind_header(front) and (piece := next(pieces, b"")):
        front += piece
    return front


class CopyFile:
    """The file that has a path, made where there is none. It is locked as a server locks its journal, so that no server goes on from it
    meanwhile, and whatever raises OSError may have left it otherwise than it is told here. Where it has no change yet, it takes up those of
    a server only if it `begins`."""

    def __init__(self, path: str, *, begins: bool) -> None:
        self.path, self.begins = path, begins
        self.file = os.open(path, os.O_RDWR | os.O_CREAT | os.O_CLOEXEC, 0o666)
        if not stat.S_ISREG(os.fstat(self.file).st_mode):
            raise OSError(f"{path} is no plain file")
        try:
            fcntl.flock(self.file, fcntl.LOCK_EX | fcntl.LOCK_NB)
        except BlockingIOError:
            raise OSError(f"{path} is open by another keeper or by a server") from None
        self.settle()
        self.check_name()
        self.length = os.fstat(self.file).st_size

    def settle(self) -> None:
        """Has a read return what the disk has, where a sync of an earlier keeper failed, and has the file's name be on the disk."""
        os.fsync(self.file)
        os.posix_fadvise(self.file, 0, 0, os.POSIX_FADV_DONTNEED)
        folder = os.open(os.path.dirname(os.path.realpath(self.path)), os.O_RDONLY | os.O_DIRECTORY | os.O_CLOEXEC)
        try:
            os.fsync(folder)
        finally:
            os.close(folder)

    def check_name(self) -> None:
        """Whoever starts a server on the path has to find this file there."""
        try:
            is_there = os.path.samestat(os.stat(self.path), os.fstat(self.file))
        except FileNotFoundError:
            is_there = False
        if not is_there:
            raise OSError(f"{self.path} isn't the file any more that is kept: it was moved or deleted")

    # ---- what a server has when it begins

    def take(self, count: int, pieces: Iterator[bytes]) -> None:
        """Has the copy be these bytes, so many, on the disk. Refused where its text is no beginning of them, or only just begins."""
        front = front_of(pieces)
        has_begun = self.begins or has_changes(os.pread(self.file, FRONT, 0))
        same, rest = self.beginning(chain((front,), pieces))
        if has_changes(front) and not has_begun:
            raise Refused(f"{self.path} has no changes, and the server's file has some: --begin takes them up")
        if same < max(count, self.length):
            # The cut is on the disk before anything is added, so that no crash leaves the new behind the old.
            os.ftruncate(self.file, same)
            os.fdatasync(self.file)
            self.length = same
            self.add(chain((rest,), pieces))
        os.fsync(self.file)
        self.check_name()

    def beginning(self, pieces: Iterator[bytes]) -> tuple[int, bytes]:
        """How many of these bytes the copy begins with, and what follows on them in their piece."""
        text, same = Text(), 0
        for piece in pieces:
            own = os.pread(self.file, len(piece), same)
            if not text.has_ended:
                text.see(own)
            if own != piece:
                at = alike(own, piece)
                self.judge(text, same + at, piece[at : at + 1])
                return same + at, piece[at:]
            same += len(piece)
        self.judge(text, same, b"")
        return same, b""

    def judge(self, text: Text, same: int, theirs: bytes) -> None:
        """Refuses a copy whose text has more than these bytes that are the same, or that has bytes and no text."""
        while not text.has_ended and text.end <= same and (piece := os.pread(self.file, PIECE, text.seen)):
            text.see(piece)
        if text.end > same:
            # No text has a byte 0, so what the server has ends before.
            which = "more than the server's file" if theirs in (b"", b"\0") else "another text than the server's file"
            raise Refused(f"{self.path} has {which}, from byte {same} on")
        if not text.end and any(piece.strip(b"\0") for piece in self.pieces()):
            raise Refused(f"{self.path} has no whole first line, so it is no journal")

    def pieces(self) -> Iterator[bytes]:
        at = 0
        while piece := os.pread(self.file, PIECE, at):
            yield piece
            at += len(piece)

    def add(self, pieces: Iterable[bytes]) -> None:
        unsynced = 0
        for piece in pieces:
            self.put(self.length, piece)
            self.length += len(piece)
            unsynced += len(piece)
            if unsynced >= STEP:
                os.fdatasync(self.file)
                unsynced = 0

    # ---- its calls, of which each is on the disk behind the next sync

    def write(self, at: int, data: bytes) -> None:
        self.fits(at, len(data))
        self.put(at, data)

    def fits(self, at: int, count: int) -> None:
        """Refuses a write that goes beyond the file's end, before its bytes have come."""
        if count > MOST:
            raise Refused(f"a write of {count} bytes, which are more than {MOST}")
        if at + count > self.length:
            raise Refused(f"a write of {count} bytes at {at}, where {self.path} has {self.length}")

    def lay_by(self, end: int, count: int) -> None:
        if end != self.length or count > MOST:
            raise Refused(f"{count} zeros at {end}, where {self.path} has {self.length} bytes")
        for at in range(end, end + count, len(ZEROS)):
            self.put(at, ZEROS[: end + count - at])
        self.length += count

    def cut(self, length: int) -> None:
        if length > self.length:
            raise Refused(f"a cut to {length} bytes, where {self.path} has {self.length}")
        os.ftruncate(self.file, length)
        self.length = length

    def sync(self) -> None:
        os.fdatasync(self.file)
        self.check_name()

    def put(self, at: int, data: bytes) -> None:
        left = memoryview(data)
        while left:
            written = os.pwrite(self.file, left, at)
            left, at = left[written:], at + written
