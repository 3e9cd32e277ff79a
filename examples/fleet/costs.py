#!/usr/bin/python3
"""What pieces cost on their way: examples/fleet/costs.py [--engine postgresql] [--pieces 100000] [--mirrors 4]

Makes a journal up, of uploads of a node each, and tells how many of its pieces a second are added to an engine (by 1 and by 128 at a
time) and read from it, and taken by one fresh mirror, and by several at once, each with a carrier. Needs Debian's redis-server and
python3-redis, or postgresql and python3-psycopg2.
"""

from __future__ import annotations

import argparse
import os
import sys
import tempfile
import time
from collections.abc import Iterator
from contextlib import ExitStack
from itertools import islice

import scripts
from engine import MOST, Engine, EngineLost, open_engine
from running import ENGINES, HERE, EngineRun, new_mirror, script, url, wait_until
from serving import seconds_of

TOP = os.path.join(HERE, "..", "..")
AT = 1_700_000_000
FILL = 9_999  # uploads of a changeset, which takes 10,000 changes
USER = '"user":{"id":1,"moderator":false,"name":"alice"}'


def pieces() -> Iterator[bytes]:
    """A legal journal of one session: a changeset, uploads of a node each, the next changeset, and so on."""
    changeset = count = 0
    for place in range(1, 1 << 40):
        if count % FILL == 0 and changeset * FILL == count:
            changeset += 1
            command = '{"act":"create_changeset","tags":{}}'
        else:
            count += 1
            where = f'"lat7":{481_000_000 + count % 1000_003},"lon7":{115_000_000 + count % 999_983}'
            new = f'{{"id":-1,{where},"tags":{{"n":"{count}"}},"type":"node"}}'
            command = f'{{"act":"upload","changeset":{changeset},"osmChange":[{{"create":[{new}]}}]}}'
        at = AT + place // 1000
        yield f'{{"entry":{{"at":{at},"call":{place},"command":{command},"session":0,{USER}}},"number":{place},"version":2}}'.encode()


def opened(run: EngineRun) -> Engine:
    until = time.monotonic() + 60
    while True:
        try:
            return open_engine(run.url)
        except EngineLost:
            if time.monotonic() > until:
                raise
            time.sleep(0.1)


def fill(engine: Engine, name: str, count: int) -> None:
    source, ones, start = pieces(), min(1000, count // 10), time.monotonic()
    for place in range(ones):
        engine.add(name, place, [next(source)])
    print(f"added one by one: {ones / (time.monotonic() - start):,.0f} pieces a second", flush=True)
    start, place = time.monotonic(), ones
    while place < count:
        many = list(islice(source, min(128, count - place)))
        engine.add(name, place, many)
        place += len(many)
    print(f"added by 128: {(count - ones) / (time.monotonic() - start):,.0f} pieces a second", flush=True)
    start, place = time.monotonic(), 0
    while many := engine.after(name, place, MOST, 0.1):
        place += len(many)
    print(f"read: {place / (time.monotonic() - start):,.0f} pieces a second", flush=True)


def taken(words: argparse.Namespace, run: EngineRun, mirrors: int) -> None:
    """Fresh mirrors, and as many carriers: how long until all of them have all pieces."""
    with ExitStack() as stack:
        started = [stack.enter_context(new_mirror(words.mirror)) for _ in range(mirrors)]
        start = time.monotonic()
        carriers = [script("carrier.py", "--mirror", url(it.port), "--engine", run.url) for it in started]
        for carrier in carriers:
            stack.callback(carrier.kill)
        for it in started:
            wait_until("a mirror", words.pieces, it.port, seconds=36_000)
        seconds = time.monotonic() - start
        whole = mirrors * words.pieces / 1e6
        worked = sum(sum(it.seconds()) for it in started) / whole, sum(sum(seconds_of(it.process.pid)) for it in carriers) / whole
        memory = max(it.megabytes() for it in started)
        print(
            f"{mirrors} fresh mirrors: {words.pieces:,} pieces each in {seconds:.1f} s, {words.pieces / seconds:,.0f} a second each;",
            end=" ",
        )
        print(f"of processor time {worked[0]:,.0f} us a piece in a mirror, {worked[1]:,.0f} in a carrier; {memory:,.0f} MB", flush=True)


def main() -> int:
    parser = argparse.ArgumentParser(usage=scripts.usage(__doc__))
    parser.add_argument("--mirror", default=os.path.join(TOP, "crates/osm_mirror/out/osm_mirror"))
    parser.add_argument("--engine", choices=tuple(ENGINES), default="redis")
    parser.add_argument("--pieces", type=int, default=100_000)
    parser.add_argument("--mirrors", type=int, default=4)
    words = parser.parse_args()
    with tempfile.TemporaryDirectory() as folder:
        run = ENGINES[words.engine](folder)
        try:
            engine = opened(run)
            name = engine.begin("")
            fill(engine, name, words.pieces)
            for mirrors in sorted({1, words.mirrors}):
                taken(words, run, mirrors)
        finally:
            run.kill()
    return 0


if __name__ == "__main__":
    sys.exit(main())
