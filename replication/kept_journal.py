"""The file in which the mirror of this program keeps its journal (docs/JOURNAL.md): read at a start, cut, and written anew.

It has what is redacted too, so it is for nobody else, and lies beside the folder that is served.
"""

from __future__ import annotations

import fcntl
import hashlib
import os
import time
from collections.abc import Iterator
from contextlib import contextmanager
from dataclasses import dataclass, field
from functools import partial
from itertools import chain
from typing import IO, TYPE_CHECKING

from feed import Taken, Unusable, entry_of, piece_of
from from_gateway import sync_folder

if TYPE_CHECKING:
    from hashlib import _Hash

HEADER = b"osm-journal 2\n"
EMPTY = b"\n"
SEAL = 2 * EMPTY  # as a start adds it: a file without empty lines is an older version's
PART = 1 << 20
WAIT = 30  # seconds for a mirror of before to let go of the file


@dataclass
class Known:
    """Pieces from the first one on: how many, the first and the last, and the SHA-256 over all of them."""

    taken: Taken = field(default_factory=Taken)
    digest: _Hash = field(default_factory=hashlib.sha256)

    def add(self, piece: bytes) -> None:
        self.taken.add(piece)
        self.digest.update(piece + b"\n")


@contextmanager
def opened(path: str) -> Iterator[IO[bytes]]:
    """The file, for this program alone. A mirror whose program was killed may have it for a moment more."""
    with open(path, "r+b") as file:
        until = time.monotonic() + WAIT
        while True:
            try:
                fcntl.flock(file, fcntl.LOCK_EX | fcntl.LOCK_NB)
                break
            except BlockingIOError:
                if time.monotonic() > until:
                    raise Unusable(f"another program has {path} open") from None
                time.sleep(0.02)
        yield file


def has_header(path: str, file: IO[bytes]) -> bool:
    """Whether the file begins as a journal. One that isn't even the beginning of one was named by mistake, and is neither cut nor moved."""
    found = file.readline(len(HEADER))
    if not HEADER.startswith(found):
        raise Unusable(f"{path} isn't the journal of a mirror, and is left as it is: --mirror-journal names another file")
    return found == HEADER


def next_line(file: IO[bytes]) -> bytes:
    """The next one that isn't empty; empty ones stand behind each batch of a mirror's, and don't count."""
    while (line := file.readline()) == EMPTY:
        pass
    return line


def has_more(file: IO[bytes]) -> bool:
    """Whether behind empty lines stands something else than zeros, which a mirror lays by there, and takes over at its next start."""
    while (first := file.read(1)) == EMPTY:
        pass
    return any(part.strip(b"\0") for part in chain([first], iter(partial(file.read, PART), b"")))


def read_kept(path: str, piece: int, digest: str) -> Known | None:
    """So many pieces of the file, where the SHA-256 over them is this one: what stands behind them is cut off. None where it isn't.

    The mirror has a piece before the folder tells of it, so behind a break the file has more than the folder, and never less.
    """
    try:
        with opened(path) as file:
            if not has_header(path, file):
                return None
            known, end = Known(), len(HEADER)
            while known.taken.number < piece:
                line = next_line(file)
                if not (line.startswith(b"{") and line.endswith(b"\n")) or b"\0" in line:
                    return None
                known.add(piece_of(line[:-1], known.taken.number + 1))
                end = file.tell()
            # Of no pieces any file has the digest, so nothing says that it may be cut.
            if known.digest.hexdigest() != digest or (not piece and next_line(file).startswith(b"{")):
                return None
            file.seek(end)
            if has_more(file):
                os.ftruncate(file.fileno(), end)
                os.fsync(file.fileno())
            return known
    except FileNotFoundError:
        return None


def set_aside(path: str) -> str | None:
    """Frees the place of the file; answers where it is now, and nothing where there is none."""
    aside = path + ".old"
    try:
        with opened(path) as file:
            has_header(path, file)
            os.replace(path, aside)
    except FileNotFoundError:
        return None
    return aside


class Appending:
    """The file kept by this program itself, for a mirror that keeps nothing: brought to the disk once for each file of the folder.

    A mirror brings each piece there by itself, which takes long where there are many. What a break leaves behind the pieces of the
    folder's state is cut off by the next start.
    """

    def __init__(self, path: str) -> None:
        if not os.path.exists(path):
            with open(os.open(path, os.O_WRONLY | os.O_CREAT | os.O_CLOEXEC, 0o600), "wb") as file:
                file.write(HEADER + SEAL)
            sync_folder(os.path.dirname(path))
        self.opening = opened(path)
        self.file = self.opening.__enter__()
        self.file.readline()

    def pieces(self, count: int) -> Iterator[bytes]:
        """So many of the pieces that it has; behind them it is cut, and goes on."""
        for number in range(1, count + 1):
            yield piece_of(next_line(self.file)[:-1], number)
        self.file.seek(self.file.tell())
        self.file.truncate()

    def add(self, piece: bytes) -> None:
        self.file.write(entry_of(piece) + b"\n")

    def sync(self) -> None:
        """Ends a batch."""
        self.file.write(EMPTY)
        self.file.flush()
        os.fsync(self.file.fileno())

    def close(self) -> None:
        self.opening.__exit__(None, None, None)


class Writing:
    """The file written anew, piece by piece: in its place once it is whole."""

    def __init__(self, path: str) -> None:
        self.path, self.new = path, path + ".new"
        self.file = open(os.open(self.new, os.O_WRONLY | os.O_CREAT | os.O_TRUNC | os.O_CLOEXEC, 0o600), "wb")
        self.file.write(HEADER)

    def add(self, piece: bytes) -> None:
        self.add_entry(entry_of(piece))

    def add_entry(self, entry: bytes) -> None:
        self.file.write(entry + b"\n")

    def drop(self) -> None:
        self.file.close()
        os.remove(self.new)

    def end(self) -> None:
        self.file.write(SEAL)
        self.file.flush()
        os.fsync(self.file.fileno())
        self.file.close()
        os.replace(self.new, self.path)
        sync_folder(os.path.dirname(self.path))
