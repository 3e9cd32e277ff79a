"""What the gateway counts, in the text form of Prometheus (version 0.0.4), at an address of its own."""

from __future__ import annotations

import asyncio
from collections.abc import Iterable, Iterator
from typing import TYPE_CHECKING

from aiohttp import web

from .links import Link, Links, Lost
from .mirrors import LOOKING, Mirrors, State, state_of
from .processes import Columns

if TYPE_CHECKING:
    from .call import Gateway

BUCKETS = (0.005, 0.01, 0.025, 0.05, 0.1, 0.25, 0.5, 1.0, 2.5, 5.0, 10.0, 60.0)
STATUSES = (200, 204, 206, 302, 303, 304, 400, 401, 403, 404, 405, 408, 409, 410, 412, 413, 414, 415, 416, 421, 424, 429, 500, 501, 502, 503, 504)
OTHER = "other"
EVERY = 1.0
"""Seconds between two looks at what is in use."""
FORM = "text/plain; version=0.0.4; charset=utf-8"
Key = tuple[str, ...]


class Counts:
    """Numbers by their names, those of all processes together. `servers` are the links' names."""

    def __init__(self, calls: Iterable[str], servers: Iterable[str], processes: int) -> None:
        self.calls, self.servers = (*calls, OTHER), (*servers,)
        keys: list[Key] = [("requests", call, status) for call in self.calls for status in (*map(str, STATUSES), OTHER)]
        keys += [("within", call, str(edge)) for call in self.calls for edge in (*BUCKETS, "+Inf")]
        keys += [("seconds", call) for call in self.calls]
        keys += [(name, server) for name in ("links", "used", "waiting", "reads") for server in self.servers]
        keys += [("room",), ("taken",), ("lost",), ("unconfirmed",)]
        self.places = {key: place for place, key in enumerate(keys)}
        self.columns = Columns(len(keys), processes)

    def add(self, *key: str, by: float = 1.0) -> None:
        self.columns.own[self.places[key]] += by

    def put(self, value: float, *key: str) -> None:
        self.columns.own[self.places[key]] = value

    def of(self, *key: str) -> float:
        place = self.places[key]
        return sum(column[place] for column in self.columns.all)

    def answered(self, call: str, status: int, seconds: float) -> None:
        self.add("requests", call, str(status) if status in STATUSES else OTHER)
        self.add("within", call, next((str(edge) for edge in BUCKETS if seconds <= edge), "+Inf"))
        self.add("seconds", call, by=seconds)


# ---- what is in use


def links_of(gateway: Gateway) -> Iterator[tuple[str, Links]]:
    yield "map", gateway.server
    if gateway.notes is not None:
        yield "notes", gateway.notes
    for it in gateway.mirrors.mirrors if gateway.mirrors is not None else ():
        yield it.url, it.links


def look(gateway: Gateway, counts: Counts) -> None:
    """Puts there what this process has in use now."""
    for name, links in links_of(gateway):
        counts.put(len(links.links), "links", name)
        counts.put(len(links.links) - len(links.free), "used", name)
        counts.put(len(links.waiting), "waiting", name)
    counts.put(gateway.room.size, "room")
    counts.put(gateway.room.taken, "taken")


def look_again(gateway: Gateway, counts: Counts) -> None:
    look(gateway, counts)
    asyncio.get_running_loop().call_later(EVERY, look_again, gateway, counts)


async def server_of(gateway: Gateway) -> State | None:
    """What the server says of its journal; None where it says nothing in time."""
    link = Link(gateway.server.address)
    try:
        async with asyncio.timeout(LOOKING):
            return await state_of(link, link.ask)
    except (Lost, TimeoutError):
        return None
    finally:
        link.close()


# ---- the text


def number(value: float) -> str:
    return str(int(value)) if value == int(value) else repr(value)


def shown(text: str) -> str:
    return text.replace("\\", "\\\\").replace('"', '\\"').replace("\n", "\\n")


def row(name: str, value: float, **labels: str) -> str:
    inner = ",".join(f'{key}="{shown(text)}"' for key, text in labels.items())
    return f"{name}{f'{{{inner}}}' if inner else ''} {number(value)}\n"


def head(name: str, kind: str, what: str) -> str:
    return f"# HELP {name} {what}\n# TYPE {name} {kind}\n"


def requests(counts: Counts) -> Iterator[str]:
    """Calls that nobody made aren't listed."""
    called = [call for call in counts.calls if counts.of("seconds", call)]
    yield head("gateway_requests_total", "counter", "Requests that were answered.")
    for call in called:
        for status in (*map(str, STATUSES), OTHER):
            if count := counts.of("requests", call, status):
                yield row("gateway_requests_total", count, call=call, status=status)
    yield head("gateway_request_seconds", "histogram", "Seconds until a reply was made; of a long one until it was written.")
    for call in called:
        count = 0.0
        for edge in (*map(str, BUCKETS), "+Inf"):
            count += counts.of("within", call, edge)
            yield row("gateway_request_seconds_bucket", count, call=call, le=edge)
        yield row("gateway_request_seconds_sum", counts.of("seconds", call), call=call)
        yield row("gateway_request_seconds_count", count, call=call)


def in_use(counts: Counts) -> Iterator[str]:
    rows = (
        ("gateway_links", "links", "Links that may be open to a server."), ("gateway_links_in_use", "used", "Links that are asked on now."),
        ("gateway_links_waiting", "waiting", "Requests that wait for a link."),
    )  # fmt: skip
    for name, key, what in rows:
        yield head(name, "gauge", what)
        for server in counts.servers:
            yield row(name, counts.of(key, server), server=server)
    yield head("gateway_room_bytes", "gauge", "What bodies and replies may take together.") + row("gateway_room_bytes", counts.of("room"))
    yield head("gateway_room_in_use_bytes", "gauge", "What they take now.") + row("gateway_room_in_use_bytes", counts.of("taken"))
    yield head("gateway_answers_lost_total", "counter", "Changes whose answer of a server didn't come.")
    yield row("gateway_answers_lost_total", counts.of("lost"))
    yield head("gateway_changes_unconfirmed_total", "counter", "Changes that too few mirrors had in time.")
    yield row("gateway_changes_unconfirmed_total", counts.of("unconfirmed"))


def server(state: State | None) -> Iterator[str]:
    yield head("map_server_up", "gauge", "1 where the server of the map told its number within two seconds.")
    yield row("map_server_up", float(state is not None))
    if state is not None:
        yield head("map_server_changes", "gauge", "The number of its last accepted change.") + row("map_server_changes", state.number)


def mirrors(counts: Counts, all_of_them: Mirrors) -> Iterator[str]:
    yield head("gateway_reads_total", "counter", "Reads of the map by who answered them.")
    for name in counts.servers:
        if name != "notes":
            yield row("gateway_reads_total", counts.of("reads", name), server=name)
    yield head("map_mirror_up", "gauge", "1 where a mirror answers reads.")
    for it in all_of_them.mirrors:
        yield row("map_mirror_up", float(not it.why_out(all_of_them.past)), mirror=it.url)
    yield head("map_mirror_changes", "gauge", "The number of a mirror's last change.")
    for it in all_of_them.mirrors:
        yield row("map_mirror_changes", it.state.number, mirror=it.url)


async def text_of(gateway: Gateway, counts: Counts) -> str:
    look(gateway, counts)
    pieces = [*requests(counts), *in_use(counts), *server(await server_of(gateway))]
    if gateway.mirrors is not None:
        pieces += mirrors(counts, gateway.mirrors)
    return "".join(pieces)


def app_of(gateway: Gateway, counts: Counts) -> web.Application:
    async def answer(_: web.Request) -> web.StreamResponse:
        return web.Response(body=(await text_of(gateway, counts)).encode(), headers={"Content-Type": FORM})

    app = web.Application()
    app.router.add_get("/metrics", answer)
    return app
