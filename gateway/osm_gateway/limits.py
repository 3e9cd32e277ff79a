"""Who asks too much, and who guesses: a bucket for each address and each name, that fills again with time."""

from __future__ import annotations

import hashlib
import math
import time
from collections import OrderedDict
from dataclasses import dataclass, field

from aiohttp import web

from .refusals import Refused

MOST = 100_000
"""Buckets that are held; behind them that which was used longest ago is forgotten."""


class TooMany(Refused):
    """429, and after how many seconds it may be tried again (RFC 6585, section 4)."""

    def __init__(self, seconds: float, what: str) -> None:
        self.seconds = max(1, math.ceil(seconds))
        super().__init__(429, f"{what}. Please try again in {self.seconds} seconds")


@dataclass
class Buckets:
    """Each key has `burst` units at first, and gets `rate` a second until it has them again."""

    rate: float
    burst: float
    rows: OrderedDict[str, tuple[float, float]] = field(default_factory=OrderedDict)

    def left(self, key: str) -> float:
        units, moment = self.rows.get(key, (self.burst, 0.0))
        return min(self.burst, units + (time.monotonic() - moment) * self.rate)

    def wait(self, key: str) -> float:
        """Seconds until the key has a unit; 0 where it has one."""
        return max(0.0, (1.0 - self.left(key)) / self.rate)

    def take(self, key: str, units: float = 1.0) -> None:
        """Takes them, below nothing too: who was given much waits longer."""
        self.rows[key] = (self.left(key) - units, time.monotonic())
        self.rows.move_to_end(key)
        while len(self.rows) > MOST:
            self.rows.popitem(last=False)


class Recent:
    """Keys of the last so many seconds, a bounded number of them."""

    def __init__(self, seconds: float) -> None:
        self.seconds, self.rows = seconds, OrderedDict[tuple[str, str], float]()

    def __contains__(self, key: tuple[str, str]) -> bool:
        return time.monotonic() - self.rows.get(key, -math.inf) < self.seconds

    def add(self, key: tuple[str, str]) -> None:
        self.rows[key] = time.monotonic()
        self.rows.move_to_end(key)
        while len(self.rows) > MOST:
            self.rows.popitem(last=False)


class Guesses:
    """Wrong names and tokens: an address has so many and then one in six seconds; a name thrice as many and then one in ten
    seconds, but for addresses from which it came rightly within a day, so that nobody is locked out by others. The same wrong
    token for a second time is no guess: a program that doesn't know of a revocation shows it with every call."""

    def __init__(self, count: int) -> None:
        self.addresses, self.names = Buckets(1 / 6, count), Buckets(1 / 10, 3 * count)
        self.known, self.shown = Recent(86_400), Recent(3_600)

    def check(self, address: str, name: str = "") -> None:
        """Before a name and a token are compared."""
        wait = self.addresses.wait(address)
        if name and (address, name) not in self.known:
            wait = max(wait, self.names.wait(name))
        if wait > 0:
            raise TooMany(wait, "Too many wrong tokens")

    def wrong(self, address: str, name: str, secret: str) -> None:
        key = (address, hashlib.sha256(f"{name}\0{secret}".encode("utf-8", "surrogatepass")).hexdigest())
        if key in self.shown:
            return
        self.shown.add(key)
        self.addresses.take(address)
        if name:
            self.names.take(name[:255])

    def right(self, address: str, name: str) -> None:
        self.known.add((address, name))


BYTES = 1 << 16
"""Bytes of a reply that count as a request more."""


class Rates:
    """Requests a second of one address, and a minute's worth of them at once; each 64 kB of replies count as one more.
    Calls of this host itself aren't counted."""

    def __init__(self, rate: float | None) -> None:
        self.buckets = Buckets(rate, 60 * rate) if rate else None

    def check(self, address: str | None) -> None:
        if self.buckets is None or address is None:
            return
        if (wait := self.buckets.wait(address)) > 0:
            raise TooMany(wait, "You have asked for too much")
        self.buckets.take(address)

    def count(self, address: str | None, length: int) -> None:
        if self.buckets is not None and address is not None and length > BYTES:
            self.buckets.take(address, length / BYTES)


def address_of(request: web.BaseRequest) -> str | None:
    """Whose call it is: behind a proxy on this host the address that it names last. None where a call of this host names none."""
    address = request.remote or ""
    if not (address.startswith("127.") or address == "::1"):
        return address
    named = request.headers.getall("X-Forwarded-For", [""])[-1].rpartition(",")[2].strip()
    return named[:100] or None


def guesser_of(request: web.BaseRequest) -> str:
    """Whose guess it is; all of this host's own are one's."""
    return address_of(request) or "this host"
