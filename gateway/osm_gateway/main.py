"""Starts the gateway and ends it in order."""

from __future__ import annotations

import asyncio
import os
import resource
import signal
from dataclasses import dataclass, replace
from typing import Any

from aiohttp import web

from . import json_write, metrics, xml_write
from .app import CALLS, LEAFLET, app_of
from .call import Gateway
from .doubts import Once
from .floors import Floors
from .id_editor import program_of
from .links import Address, Links
from .log import CommonLog, hear_faults, tell
from .metrics import Counts
from .mirrors import Mirrors
from .people import BadUsers, People
from .processes import Columns, Shared, is_taken, run
from .room import MEGABYTE, Room
from .store import BadStore, Store
from .users_file import UsersFile, read_people
from .words import Words, read_words
from .xml_texts import Texts

ENDING = 20.0
"""Seconds that calls which are being answered have at the end."""
LINE = 1 << 14
FILES = 1 << 16


def first_people(words: Words) -> People:
    if words.edit_users and os.path.exists(words.users) and not os.path.isfile(words.users):
        raise SystemExit(f"gateway: {words.users} is no plain file, which --edit-users needs")
    try:
        return read_people(words.users)
    except BadUsers as why:
        raise SystemExit(f"gateway: {why}") from None


def many_files() -> None:
    """Room for as many links of clients as this user may have."""
    soft, hard = resource.getrlimit(resource.RLIMIT_NOFILE)
    wanted = FILES if hard == resource.RLIM_INFINITY else min(FILES, hard)
    if soft < wanted:
        resource.setrlimit(resource.RLIMIT_NOFILE, (wanted, hard))


def links_of(name: str, address: Address, words: Words) -> Links:
    return Links(f"the server of {name}", address, words.links, tell)


def opened(words: Words) -> Store:
    """The gateway's own file."""
    try:
        return Store(words.data)
    except BadStore as why:
        raise SystemExit(f"gateway: {why}") from None


def check_editor(folder: str) -> None:
    try:
        if folder:
            program_of(folder)
    except ValueError as why:
        raise SystemExit(f"gateway: {why}") from None


def licensed(words: Words) -> None:
    """The strings of a licence in all documents."""
    texts = Texts()
    xml_write.licence = "".join(f' {name}="{texts(value)}"' for name, value in words.licence)
    json_write.licence = "".join(f',"{name}":{json_write.value_of(value)}' for name, value in words.licence)


@dataclass
class Common:
    """What all processes have together."""

    floors: Floors
    counts: Counts | None
    shared: Shared | None
    reads: Columns
    """When each has read the users text last."""
    parent: int | None

    @staticmethod
    def of(words: Words) -> Common:
        servers = ("map", *(("notes",) if words.notes else ()), *(it.url for it in words.mirrors))
        counts = Counts(CALLS, servers, words.processes) if words.metrics else None
        shared, parent = (Shared(), os.getpid()) if words.processes > 1 else (None, None)
        return Common(Floors(words.processes), counts, shared, Columns(1, words.processes), parent)

    def begin(self, process: int) -> None:
        self.floors.begin(process)
        self.reads.begin(process)
        if self.counts is not None:
            self.counts.columns.begin(process)


def gateway_of(words: Words, people: People, store: Store, common: Common) -> Gateway:
    server = links_of("the map", words.server, words)
    notes = links_of("notes", words.notes, words) if words.notes else None
    mirrors = Mirrors(server, words.mirrors, words.links, common.floors) if words.mirrors else None
    return Gateway(
        words, people, server, notes, Room(words.room * MEGABYTE, tell), store,
        UsersFile(words.users, people, store, common.reads, common.parent), once=Once(shared=common.shared), mirrors=mirrors, counts=common.counts,
    )  # fmt: skip


def begin(gateway: Gateway) -> None:
    for links in filter(None, (gateway.server, gateway.notes)):
        links.rest()
    if gateway.mirrors is not None:
        gateway.mirrors.begin()


def end(gateway: Gateway) -> None:
    for links in filter(None, (gateway.server, gateway.notes)):
        links.close()
    if gateway.mirrors is not None:
        gateway.mirrors.close()
    gateway.store.close()


def told_to_end() -> asyncio.Event:
    ended = asyncio.Event()
    for number in (signal.SIGTERM, signal.SIGINT):
        asyncio.get_running_loop().add_signal_handler(number, ended.set)
    return ended


async def listen(app: web.Application, place: tuple[str, int], is_shared: bool, **more: Any) -> web.AppRunner | None:
    """None where somebody else listens there, which is told."""
    runner = web.AppRunner(app, **more)
    await runner.setup()
    try:
        await web.TCPSite(runner, *place, backlog=1024, shutdown_timeout=ENDING, reuse_port=is_shared or None).start()
    except OSError as why:
        tell(f"can't listen on {place[0]}:{place[1]}: {why}")
        await runner.cleanup()
        return None
    return runner


async def serve(words: Words, gateway: Gateway, is_shared: bool) -> int:
    if not words.data:
        tell("authorizations, preferences, discussions and blocks are in memory alone: --data names a file for them")
    ended = told_to_end()
    asyncio.get_running_loop().add_signal_handler(signal.SIGHUP, gateway.users.read_again)
    runners = [
        await listen(
            app_of(gateway), (words.host, words.port), is_shared, access_log_class=CommonLog, access_log=None if words.quiet else CommonLog.sink(),
            auto_decompress=False, max_line_size=LINE, max_field_size=LINE, keepalive_timeout=75,
        ),
    ]  # fmt: skip
    if words.metrics and gateway.counts is not None:
        runners.append(await listen(metrics.app_of(gateway, gateway.counts), words.metrics, is_shared, access_log=None))
        metrics.look_again(gateway, gateway.counts)
    if None in runners:
        return 6
    tell(f"{Address(words.host, words.port).url} in front of {words.server.url}")
    if not os.path.isdir(LEAFLET):
        tell(f"there is no {LEAFLET}: the page has no map without Debian's libjs-leaflet")
    begin(gateway)
    await ended.wait()
    tell("ending")
    for runner in filter(None, runners):
        await runner.cleanup()
    end(gateway)
    tell("ended")
    return 0


def main() -> int:
    words = read_words()
    people = first_people(words)
    check_editor(words.id)
    licensed(words)
    many_files()
    hear_faults()
    signal.signal(signal.SIGHUP, signal.SIG_IGN)  # until there is somebody to read the users text again
    common = Common.of(words)

    def one(part: Words) -> int:
        async def run_it() -> int:
            return await serve(part, gateway_of(part, people, opened(part), common), common.shared is not None)

        return asyncio.run(run_it())

    if words.processes == 1:
        return one(words)
    if any(is_taken(*place) for place in ((words.host, words.port), words.metrics) if place):
        return 6
    opened(words).close()
    part = replace(words, links=max(words.links // words.processes, 1), room=max(words.room // words.processes, 1))

    def one_of_several(number: int) -> int:
        common.begin(number)
        return one(part)

    return run(words.processes, one_of_several)
