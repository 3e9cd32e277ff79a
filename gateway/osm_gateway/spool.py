"""Bytes of a body: in memory while they are few, and in a file without a name behind that."""

from __future__ import annotations

import codecs
import tempfile
import zlib
from collections.abc import Iterator

from .refusals import Refused
from .room import Share

KEPT = 1 << 18
"""Bytes of one body that stay in memory."""
PIECE = 1 << 15
MEMBERS = 10_000
"""Members of gzip that one body may have: each costs some work, and may hold nothing."""
GZIP, GZIP_OR_ZLIB = 31, 47
"""What zlib is to undo; the second tells the two apart by the first bytes."""


class NoDisk(Refused):
    """The disk takes no more."""

    def __init__(self, why: OSError) -> None:
        super().__init__(503, "The gateway's disk is full or fails; nothing was done")
        self.why = why


class Spool:
    """Is written once, and then read from the start as often as somebody likes, also by several at once."""

    def __init__(self, share: Share | None = None) -> None:
        # pylint: disable-next=consider-using-with
        self.file = tempfile.SpooledTemporaryFile(max_size=KEPT)
        self.size, self.share = 0, share

    def write(self, data: bytes) -> None:
        if self.share is not None:
            self.share.take(len(data))
        self.size += len(data)
        try:
            self.file.write(data)
        except OSError as why:
            raise NoDisk(why) from None

    def pieces(self, length: int = PIECE) -> Iterator[bytes]:
        try:
            self.file.flush()
            place = 0
            while place < self.size:
                self.file.seek(place)
                data = self.file.read(length)
                if not data:
                    raise OSError("a file is shorter than what was written")
                place += len(data)
                yield data
        except OSError as why:
            raise NoDisk(why) from None

    def texts(self) -> Iterator[str]:
        """Its bytes as UTF-8; UnicodeDecodeError where they aren't."""
        decoder = codecs.getincrementaldecoder("utf-8")()
        for data in self.pieces():
            yield decoder.decode(data)
        yield decoder.decode(b"", True)

    def whole(self) -> bytes:
        return b"".join(self.pieces())

    def clear(self) -> None:
        if self.share is not None:
            self.share.give(self.size)
        self.file.seek(0)
        self.file.truncate()
        self.size = 0

    def close(self) -> None:
        """Gives its room back; a second time nothing."""
        self.file.close()
        if self.share is not None:
            self.share.give(self.size)
            self.share = None


class Coding:
    """Undoes the Content-Encoding of a body piece by piece, gzip or deflate, never more than a limit at once."""

    def __init__(self, name: str) -> None:
        self.is_gzip = name in ("gzip", "x-gzip")
        self.inflate = zlib.decompressobj(GZIP_OR_ZLIB) if self.is_gzip or name == "deflate" else None
        self.known = self.inflate is not None or name in ("", "identity")
        self.members = 1

    def undone(self, data: bytes) -> Iterator[bytes]:
        """ValueError where it can't be undone, and where something stands behind the end that is no member of gzip."""
        if self.inflate is None:
            yield data
            return
        while data:
            if self.inflate.eof:
                self.inflate = self.next_member()
            try:
                yield self.inflate.decompress(data, PIECE)
            except zlib.error as why:
                raise ValueError(str(why)) from None
            data = self.inflate.unused_data or self.inflate.unconsumed_tail

    def next_member(self) -> zlib._Decompress:
        """RFC 1952, 2.2: a gzip file is one member or several."""
        self.members += 1
        if not self.is_gzip:
            raise ValueError("something follows its end")
        if self.members > MEMBERS:
            raise ValueError(f"it has more than {MEMBERS} members")
        return zlib.decompressobj(GZIP)

    def is_whole(self) -> bool:
        return self.inflate is None or self.inflate.eof
