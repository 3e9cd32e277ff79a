"""A server's feed: its pieces, one after another, and whether they are still those of one journal."""

from __future__ import annotations

import json
import re
from dataclasses import dataclass

from kept_link import Link, Lost, Reply, Site

MOST = 128  # pieces that are asked for at once
LARGE = 8 << 20  # bytes; a piece may have 32 MiB
NUMBER = re.compile(rb'"number":(\d+),"version":\d+}$')
BEFORE, BEHIND = b'{"entry":', b',"number":%d,"version":2}'


class OtherJournal(Exception):
    """The server was started anew, or is another one: what it has isn't what was taken before."""


class Unusable(Exception):
    """What the other side says can't be gone on with, now or later."""


def piece_of(entry: bytes, number: int) -> bytes:
    """The piece of a line of the journal's text."""
    return BEFORE + entry + BEHIND % number


def entry_of(piece: bytes) -> bytes:
    """The line of the journal's text that a piece has."""
    entry = piece[len(BEFORE) : piece.rfind(b',"number":')]
    found = NUMBER.search(piece)
    if found is None or piece_of(entry, int(found[1])) != piece:
        raise Unusable(f"a piece isn't of the form that is known: {piece[:60]!r}")
    return entry


@dataclass
class Taken:
    """How far a journal was taken: its number of pieces, with the first and the last of them."""

    number: int = 0
    first: bytes = b""
    last: bytes = b""

    def add(self, piece: bytes) -> None:
        self.number += 1
        self.first, self.last = self.first or piece, piece


def next_window(window: int, pieces: list[bytes], most: int) -> int:
    """How many pieces are asked for behind these: twice as many, but few where they are large."""
    return max(1, window // 2) if sum(map(len, pieces)) > LARGE else min(2 * window, most)


def is_end(reply: Reply) -> bool:
    """Whether it says that the feed doesn't go so far."""
    return reply.status == 404 and json.loads(reply.body).get("error") == "no_piece"


class Feed:
    """The pieces behind those that were taken.

    A server that was started anew has a journal of its own, so each new link is compared before anything is taken from it: it must
    have the first piece and the last one that were taken, byte for byte. The stamps in these two tell journals apart that began in
    different seconds. The server has to be asked itself: behind a proxy one link may lead to two servers.
    """

    def __init__(self, url: str, token: str, taken: Taken | None = None) -> None:
        self.taken = taken or Taken()
        self.site = Site(url, token, greet=self.compare)
        self.window = 1

    def compare(self, link: Link) -> None:
        known = {1: self.taken.first, self.taken.number: self.taken.last}
        for number, piece in known.items() if self.taken.number else ():
            link.send([self.site.get(f"replication/{number}")])
            reply = link.receive()
            if is_end(reply) or (reply.status == 200 and reply.body != piece):
                raise OtherJournal(
                    f"{self.site.url} has another journal: piece {number} isn't the one that was taken ({self.taken.number} were)"
                )
            if reply.status != 200:
                raise self.refused(reply)

    def next_pieces(self) -> list[bytes]:
        """Some pieces, in their order; none where the feed goes no further now. Raises Lost where the server doesn't answer.

        The piece that comes next is asked for itself, so one request tells of news and brings it. Where there is more, more are asked for
        at once.
        """
        start = self.taken.number + 1
        requests = [self.site.get(f"replication/{it}") for it in range(start, start + self.window)]
        pieces: list[bytes] = []
        ended = False
        try:
            for reply in self.site.exchange(requests):
                ended = ended or is_end(reply)
                if ended:  # one that came behind it is asked for again
                    continue
                if reply.status != 200:
                    raise self.refused(reply)
                pieces.append(self.checked(reply.body, start + len(pieces)))
                # At once, since the next reply may come on a new link, which is compared with this piece.
                self.taken.add(pieces[-1])
        except Lost:
            if not pieces:
                raise
        self.window = next_window(self.window, pieces, MOST) if len(pieces) == self.window else 1
        return pieces

    def last(self) -> int:
        """How many pieces there are by now."""
        reply = self.site.ask(self.site.get("replication/state"))
        if reply.status != 200:
            raise self.refused(reply)
        return int(json.loads(reply.body)["sequenceNumber"])

    def checked(self, body: bytes, number: int) -> bytes:
        found = NUMBER.search(body)
        if found is None or int(found[1]) != number:
            raise Unusable(f"{self.site.url}: in place of piece {number} came {body[-60:]!r}")
        return body

    def refused(self, reply: Reply) -> Exception:
        text = f"{self.site.url}: {reply.status} {reply.body[:200].decode(errors='replace')}"
        # Want of memory passes; a token that is no moderator's stays one.
        return Lost(text) if reply.status >= 500 else Unusable(text)
