"""How much the bodies of all calls may take together, in memory and in files, and how much those of one address."""

from __future__ import annotations

from collections.abc import Callable
from dataclasses import dataclass, field

from .refusals import Refused

MEGABYTE = 1 << 20
SHARES = 4
"""One address may have this part of the room."""


@dataclass
class Room:
    """Bytes that are taken, and by whom. `tell` gets a line when it is full and one when there is room again."""

    size: int
    tell: Callable[[str], None]
    taken: int = 0
    by_address: dict[str, int] = field(default_factory=dict)
    is_full: bool = False

    def take(self, address: str | None, count: int) -> None:
        """Refuses what doesn't fit; nothing is taken then. No address: somebody whom only the whole bounds."""
        if self.taken + count > self.size:
            self.full(True)
            raise Refused(503, "So much is on its way to other readers that the gateway has no room for this at the moment; nothing was done")
        share = self.size // SHARES
        if address is not None and self.by_address.get(address, 0) + count > share:
            raise Refused(503, f"The calls of your address take more than {share // MEGABYTE} MB together; nothing was done")
        self.add(address, count)

    def add(self, address: str | None, count: int) -> None:
        """Takes without asking, or gives back where the count is below zero."""
        self.taken += count
        if address is not None:
            rest = self.by_address.get(address, 0) + count
            if rest:
                self.by_address[address] = rest
            else:
                self.by_address.pop(address, None)
        if self.taken < self.size // 2:
            self.full(False)

    def full(self, is_full: bool) -> None:
        if is_full != self.is_full:
            self.is_full = is_full
            self.tell("no room for more bodies and replies: calls are refused" if is_full else "there is room for bodies and replies again")


@dataclass(frozen=True)
class Share:
    """Whose bytes these are. Those of a reply to a change are taken where there is no room too: the change was made."""

    room: Room
    address: str | None = None
    always: bool = False

    def take(self, count: int) -> None:
        if self.always:
            self.room.add(self.address, count)
        else:
            self.room.take(self.address, count)

    def give(self, count: int) -> None:
        self.room.add(self.address, -count)
