"""Follows a server's feed, and writes what each interval made into the folder."""

from __future__ import annotations

import time
from collections.abc import Iterator, Sequence

import changeset_file
from change_file import Element, packed, text_of
from feed import Unusable
from folder import State
from kept_link import Lost
from made import Made, Version, made_by, read_piece
from own_mirror import OwnMirror
from start import Start

MOST_VERSIONS = 50_000  # from so many on a file ends, at the end of a piece
MOST_POSTED = 500  # pieces that are held back for the mirror
MOST_BYTES = 8 << 20  # of them
MANY = 500  # versions that are read at once


class Follower:
    """The feed behind a start, a mirror of its own that has each piece that was looked at, and the folder."""

    def __init__(self, start: Start, mirror: OwnMirror) -> None:
        if mirror.length != start.known.taken.number:
            raise Unusable(f"the mirror has {mirror.length} pieces of {mirror.journal}, which has {start.known.taken.number}")
        self.start, self.mirror, self.folder = start, mirror, start.folder
        self.state = start.state
        self.unposted: list[bytes] = []
        self.unposted_bytes = 0
        self.versions: dict[Version, None] = {}
        self.at = 0

    def advance(self) -> Iterator[State]:
        """Takes what the feed has, and tells of each file that came of it. Where the server is lost, behind what could be written.

        Where nothing came, a file without changes tells followers that the server was asked: so a quiet one isn't taken for a dead one.
        """
        self.state = self.state or self.begin()
        asked = int(time.time())
        is_whole, is_quiet = False, True
        while not is_whole:
            lost: Lost | None = None
            try:
                is_whole = self.gather()
            except Lost as why:
                lost = why
            self.post()
            if self.versions:
                is_quiet = False
                yield self.publish(self.at)
            if lost is not None:
                raise lost
        if is_quiet:
            # Before the feed was asked, so what is stamped later is in a later file.
            yield self.publish(asked)

    def begin(self) -> State:
        """Of a new folder: sequence number 0, without changes, just before the first piece."""
        text = self.start.next_text()
        if text is not None:
            self.start.ahead.appendleft(text)
        moment = (int(time.time()) if text is None else read_piece(text).at) - 1
        state = State(0, moment, 0, self.start.known.digest.hexdigest(), dict(self.start.counts.ids))
        self.folder.publish(state, packed(text_of(())), packed(changeset_file.text_of(())))
        return state

    def gather(self) -> bool:
        """Looks at pieces until the feed ends or a file is full; answers whether it ended."""
        while len(self.versions) < MOST_VERSIONS:
            text = self.start.next_text()
            if text is None:
                return True
            self.look_at(text)
        return False

    def look_at(self, text: bytes) -> None:
        piece = read_piece(text)
        made = made_by(piece, self.start.counts)
        self.start.changesets.add(piece, self.start.counts)
        self.start.known.add(text)
        if self.start.appending is not None:
            self.start.appending.add(text)
        self.at = piece.at
        self.versions.update(dict.fromkeys(made.sure))
        if made.perhaps:
            self.versions.update(dict.fromkeys(self.new_ones(text, made)))
            return
        self.unposted.append(text)
        self.unposted_bytes += len(text)
        if len(self.unposted) >= MOST_POSTED or self.unposted_bytes >= MOST_BYTES:
            self.post()

    def new_ones(self, text: bytes, made: Made) -> Sequence[Version]:
        """Which of the uncertain versions a piece made: those that weren't there before and are there behind it."""
        self.post()
        paths = [it.path for it in made.perhaps]
        before = self.mirror.read(paths)
        self.mirror.post([text])
        after = self.mirror.read(paths)
        return [it for it, was, now in zip(made.perhaps, before, after) if was is None and now is not None]

    def post(self) -> None:
        self.mirror.post(self.unposted)
        self.unposted.clear()
        self.unposted_bytes = 0

    def publish(self, at: int) -> State:
        """One file with every version of the interval that no redaction hides at its end, and one with its changesets."""
        assert self.state is not None
        # Moments of files rise, so that none is found in place of another by its moment.
        moment = max(at, self.state.moment + 1)
        if self.start.appending is not None:
            self.start.appending.sync()
        news = self.start.changesets.told(self.mirror.changesets(self.start.changesets.to_look_at()))
        ids, is_open = dict(self.start.counts.ids), tuple(sorted(self.start.changesets.open))
        state = State(self.state.sequence + 1, moment, self.mirror.length, self.start.known.digest.hexdigest(), ids, is_open)
        self.folder.publish(state, packed(text_of(self.shown())), packed(changeset_file.text_of(news)))
        self.state = state
        self.versions.clear()
        return state

    def shown(self) -> Iterator[Element]:
        """Read from the mirror while they are written, so that few are in memory at a time."""
        names = sorted(self.versions, key=lambda it: it.place)
        for start in range(0, len(names), MANY):
            part = names[start : start + MANY]
            for name, element in zip(part, self.mirror.read([it.path for it in part])):
                if element is None:
                    raise Unusable(f"the mirror has no {name.path}, which the feed tells of")
                if "redaction" not in element:
                    yield element
