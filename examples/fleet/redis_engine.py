"""Redis Streams as the engine: piece N is the entry N-0 of the journal's stream, and Redis refuses an id that isn't above all others."""

from __future__ import annotations

from collections.abc import Iterator
from contextlib import contextmanager
from typing import Any

import redis

from engine import Behind, EngineLost, new_name
from feed import Taken, Unusable

SECONDS = 60  # for an answer, of which a waiting read takes a few
CURRENT = "hegunsap:journal"
# Either all pieces come behind the one that is the last, or none does.
ADD = """
local last = redis.call('XREVRANGE', KEYS[1], '+', '-', 'COUNT', 1)
local number = tonumber(ARGV[1])
if (last[1] and last[1][1] or '0-0') ~= string.format('%d-0', number) then return 0 end
for place = 2, #ARGV do
    redis.call('XADD', KEYS[1], string.format('%d-0', number + place - 1), 'piece', ARGV[place])
end
return 1
"""


@contextmanager
def asked() -> Iterator[None]:
    try:
        yield
    except redis.RedisError as why:
        raise EngineLost(f"redis: {why}") from why


def stream(journal: str) -> str:
    return f"hegunsap:pieces:{journal}"


class RedisEngine:
    def __init__(self, url: str) -> None:
        self.link: Any = redis.Redis.from_url(url, socket_timeout=SECONDS)
        self.script: Any = self.link.register_script(ADD)
        with asked():
            self.link.ping()

    def check_keeping(self, is_trusted: bool) -> None:
        """Many that run for others forbid CONFIG. One that tells otherwise isn't believed to keep, whatever the operator says."""
        try:
            with asked():
                kept = {**self.link.config_get("appendonly"), **self.link.config_get("appendfsync")}
        except EngineLost as why:
            if not isinstance(why.__cause__, redis.ResponseError):
                raise
            if not is_trusted:
                raise untold(why) from why
            return
        if not kept and is_trusted:
            return
        if not kept:
            raise untold("redis: CONFIG GET tells nothing")
        if kept != {"appendonly": "yes", "appendfsync": "always"}:
            raise Unusable(f"redis doesn't bring each piece to the disk before it answers, but has {kept}: redis.conf has the lines for it")

    def journal(self) -> str:
        with asked():
            return (self.link.get(CURRENT) or b"").decode()

    def begin(self, before: str) -> str:
        with asked(), self.link.pipeline() as steps:
            try:
                steps.watch(CURRENT)
                if (steps.get(CURRENT) or b"").decode() == before:
                    steps.multi()
                    steps.set(CURRENT, new_name())
                    steps.execute()
            except redis.WatchError:
                pass
        return self.journal()

    def ends(self, journal: str) -> Taken:
        with asked():
            last = self.link.xrevrange(stream(journal), count=1)
            first = self.link.xrange(stream(journal), count=1)
        return Taken(number_of(last[0]), first[0][1][b"piece"], last[0][1][b"piece"]) if last else Taken()

    def piece(self, journal: str, number: int) -> bytes | None:
        with asked():
            found = self.link.xrange(stream(journal), f"{number}-0", f"{number}-0")
        return found[0][1][b"piece"] if found else None

    def add(self, journal: str, number: int, pieces: list[bytes]) -> None:
        with asked():
            if not self.script(keys=[stream(journal)], args=[number, *pieces]):
                raise Behind

    def after(self, journal: str, number: int, most: int, seconds: float) -> list[bytes]:
        with asked():
            found = self.link.xread({stream(journal): f"{number}-0"}, count=most, block=int(seconds * 1000))
        entries = found[0][1] if found else []
        for place, entry in enumerate(entries, number + 1):
            if number_of(entry) != place:
                raise Unusable(f"{stream(journal)} has entry {entry[0].decode()} where {place}-0 should be")
        return [entry[1][b"piece"] for entry in entries]

    def close(self) -> None:
        self.link.close()


def untold(why: object) -> Unusable:
    return Unusable(f"{why}; so whether it has a piece on the disk before it answers isn't known. Who knows that it does says --trust-engine")


def number_of(entry: tuple[bytes, Any]) -> int:
    return int(entry[0].partition(b"-")[0])
