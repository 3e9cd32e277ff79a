"""A mirror that is given pieces, many on their way at a time, and never one of another journal than it has."""

from __future__ import annotations

import json
import time
from collections.abc import Sequence
from typing import Any, Protocol

from feed import OtherJournal, Taken, Unusable
from kept_link import Link, Lost, Reply, Site


class Pieces(Protocol):
    """Where the pieces of one journal come from."""

    def ends(self) -> Taken:
        """How many there are, with the first and the last."""

    def piece(self, number: int) -> bytes:
        ...


class Mirror:
    """A mirror, and how far it has the journal. It may be started anew at any time, so each new link is compared before it is used."""

    def __init__(self, url: str, token: str, pieces: Pieces) -> None:
        self.pieces, self.number, self.said = pieces, 0, 0.0
        self.site = Site(url, token, greet=self.compare)

    def compare(self, link: Link) -> None:
        """The first and the last piece that both have are posted once more: a mirror tells whether it has just these."""
        self.said = 0.0
        has = self.length_of(link)
        taken = self.pieces.ends()
        if has and not taken.number:
            raise Lost(f"{self.site.url} has {has} pieces, and there is none to compare them with")
        self.number = min(has, taken.number)
        for number in sorted({1, self.number}) if self.number else ():
            link.send([self.site.post("replication", self.pieces.piece(number))])
            self.judge(number, link.receive())

    def length_of(self, link: Link) -> int:
        link.send([self.site.get("replication/state")])
        reply = link.receive()
        if reply.status != 200:
            raise self.refused(reply, "its state")
        return int(body_of(reply)["sequenceNumber"])

    def begin(self) -> None:
        """Makes a link where there is none, and with it `number` is what the mirror has."""
        self.site.open_link()

    def take(self, pieces: Sequence[bytes]) -> None:
        """Those behind `number`. Raises Lost where some may be missing; `number` and a new link tell from where on."""
        requests = [self.site.post("replication", it) for it in pieces]
        for number, reply in enumerate(self.site.exchange(requests), self.number + 1):
            self.judge(number, reply)
            self.number = number

    def look(self) -> None:
        """Looks whether it is still there and has what it had. A link that is never used would be ended by the mirror."""
        reply = self.site.ask(self.site.get("replication/state"))
        if reply.status != 200 or int(body_of(reply)["sequenceNumber"]) != self.number:
            self.close()

    def level(self, every: float) -> bool:
        """Says that it has all that there is, where that wasn't said on this link in the last so many seconds. It tells what it has then,
        and one that has something else is looked at anew."""
        if self.said and time.monotonic() - self.said < every:
            return False
        reply = self.site.ask(self.site.put("replication/level"))
        if body_of(reply).get("level") is not True:
            raise self.refused(reply, "that it is level")
        if body_of(reply)["next"] != self.number + 1:
            self.close()
        else:
            self.said = time.monotonic()
        return True

    def judge(self, number: int, reply: Reply) -> None:
        if body_of(reply).get("taken") not in ("folded", "old"):
            raise self.refused(reply, f"piece {number}")

    def refused(self, reply: Reply, what: str) -> Exception:
        text = f"{self.site.url}: {what}: {reply.status} {reply.body[:200].decode(errors='replace')}"
        error = body_of(reply).get("error")
        if error in ("differs", "illegal"):
            return OtherJournal(f"{text}: it has another journal")
        # A gap: the mirror was started anew meanwhile. Want of memory may pass.
        return Lost(text) if error == "gap" or reply.status >= 500 else Unusable(text)

    def close(self) -> None:
        self.site.close()


def body_of(reply: Reply) -> dict[str, Any]:
    try:
        found: dict[str, Any] = json.loads(reply.body)
    except ValueError:
        return {}
    return found
