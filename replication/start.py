"""A start: what the folder was made of, as the mirror's file keeps it, else as the feed has it from the first piece on."""

from __future__ import annotations

import hashlib
from collections import deque
from collections.abc import Sequence
from dataclasses import replace
from itertools import islice

from feed import Feed, OtherJournal
from folder import Folder
from kept_journal import Appending, Known, Writing, read_kept, set_aside
from made import Changesets, Counts, made_by, read_piece
from own_mirror import OwnMirror

NOTHING = hashlib.sha256().hexdigest()
FAR = 1_000  # new pieces from which on the mirror doesn't keep them, each by itself, but this program
MOST_POSTED = 500  # pieces that a mirror is given at once


class Start:
    """The feed behind the pieces of the folder's newest state, and what is known of these.

    The SHA-256 over all pieces has to be the one that the folder tells of, whether they come from the file or from the feed. Where the
    file has them the feed is compared with the first and the last of them, on each link: so no other journal is gone on with.
    """

    def __init__(self, url: str, token: str, folder: Folder, path: str) -> None:
        self.folder, self.path = folder, path
        self.state = folder.newest()
        if self.state is not None:
            folder.tell_changesets(self.state)
        self.aside: str | None = None
        self.counts, self.changesets = Counts(), Changesets()
        self.ahead: deque[bytes] = deque()
        self.writing: Writing | None = None
        self.appending: Appending | None = None
        known = self.read()
        self.known = known or Known()
        self.feed = Feed(url, token, replace(self.known.taken))

    def read(self) -> Known | None:
        """What the file has of the state's pieces, where it is usable; any other journal is set aside."""
        state = self.state
        piece, digest, ids = (state.piece, state.digest, state.ids) if state else (0, NOTHING, None)
        if ids is not None or not piece:
            known = read_kept(self.path, piece, digest)
            if known is not None:
                self.counts = Counts(dict(ids or self.counts.ids))
                self.changesets.open.update(state.open if state else ())
                return known
        self.aside = set_aside(self.path)
        return None

    def take(self) -> None:
        """Has the file written out of the feed where it wasn't usable. Raises Lost where the server doesn't answer, and then goes on."""
        state = self.state
        if state is None or self.known.taken.number == state.piece:
            return
        self.writing = self.writing or Writing(self.path)
        while self.known.taken.number < state.piece:
            text = self.next_text()
            if text is None:
                raise self.other(f"it is shorter than {state.piece} pieces")
            piece = read_piece(text)
            made_by(piece, self.counts)
            self.changesets.add(piece, self.counts)
            self.known.add(text)
            self.writing.add(text)
        if self.known.digest.hexdigest() != state.digest:
            raise self.other(f"its first {state.piece} pieces are others")
        self.writing.end()
        self.changesets.forget(state.moment)

    def mirror(self, words: Sequence[str]) -> OwnMirror:
        """One that has the pieces of the state: it reads them in its file. Where the feed is far ahead they are given to one without."""
        if self.feed.last() - self.known.taken.number <= FAR:
            return OwnMirror(words, self.path)
        self.appending = Appending(self.path)
        mirror = OwnMirror(words, None)
        try:
            pieces = self.appending.pieces(self.known.taken.number)
            while part := list(islice(pieces, MOST_POSTED)):
                mirror.post(part)
        except BaseException:
            mirror.close()
            raise
        return mirror

    def close(self) -> None:
        self.feed.site.close()
        if self.appending is not None:
            self.appending.close()

    def other(self, why: str) -> OtherJournal:
        if self.writing is not None:
            self.writing.drop()
        return OtherJournal(f"{self.feed.site.url} has another journal than {self.folder.path}: {why}")

    def next_text(self) -> bytes | None:
        if not self.ahead:
            self.ahead.extend(self.feed.next_pieces())
        return self.ahead.popleft() if self.ahead else None
