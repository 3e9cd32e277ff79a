"""Searches of changesets behind the newest hundred that the server lists, against all of them, by the definitions of OSM's wiki (API v0.6)."""

from __future__ import annotations

import json
import random
import time
import xml.etree.ElementTree as ET
from dataclasses import dataclass, field
from datetime import datetime, timedelta, timezone
from typing import Any
from urllib.parse import parse_qs, quote, urlencode

from behind import USERS, Gateway, has, want
from rows import Request, Standing
from serving import Link, Reply, Server

SEED, COUNT, QUERIES = 20261201, 1000, 400
SIDES = ("minlon7", "minlat7", "maxlon7", "maxlat7")
Row = dict[str, Any]
Query = dict[str, str]
BOXES = ("0,0,1,1", "-1,-1,0.05,0.05", "0.3,0.3,0.3,0.3", "50,50,51,51", "-180,-90,180,90")


def stamp(moment: datetime) -> str:
    return moment.strftime("%Y-%m-%dT%H:%M:%SZ")


def units(degrees: str) -> int:
    return round(float(degrees) * 10_000_000)


# ---- what passes, by the definitions


def meets(it: Row, box: str) -> bool:
    west, south, east, north = map(units, box.split(","))
    return "minlon7" in it and it["minlon7"] <= east and west <= it["maxlon7"] and it["minlat7"] <= north and south <= it["maxlat7"]


def passes(it: Row, query: Query) -> bool:
    """Stamps are of one form, so their texts have the order of the moments. One that is open isn't closed before any moment."""
    closed, created = it.get("closed_at", "9999"), it["created_at"]
    since, _, until = query.get("time", "").partition(",")
    names = {"alice": 1, "bob": 2, "Ünï Cödé": 3}
    return (
        int(query.get("user", it["uid"])) == it["uid"]
        and names.get(query.get("display_name", ""), it["uid"]) == it["uid"]
        and ("open" not in query or it["open"])
        and ("closed" not in query or not it["open"])
        and ("bbox" not in query or meets(it, query["bbox"]))
        and closed >= since
        and created <= (until or "9999")
        and query.get("from", "") <= created < query.get("to", "9999")
    )


def wanted(rows: list[Row], query: Query) -> list[int]:
    found = [it["id"] for it in rows if passes(it, query)]
    return (found if query.get("order") == "oldest" else found[::-1])[: int(query.get("limit", "100"))]


# ---- a stand-in with many changesets


def drawn_rows(draw: random.Random, count: int) -> list[Row]:
    """Until now. Several have one moment, a few of the last day are open, and some touch nothing."""
    pauses = [timedelta(minutes=draw.choice((0, 0, 1, 9, 30))) for _ in range(count)]
    rows, created = [], datetime.now(timezone.utc) - sum(pauses, timedelta())
    for number, pause in enumerate(pauses, 1):
        created += pause
        user = draw.choices((1, 2, 3), (60, 38, 2))[0]
        it: Row = {"id": number, "open": False, "created_at": stamp(created), "changes_count": 0, "uid": user, "user": "x", "tags": {}}
        if number > count - 40 and draw.random() < 0.5:
            it["open"] = True
        else:
            it["closed_at"] = stamp(created + timedelta(seconds=draw.choice((0, 5, 3600, 86_400))))
        if draw.random() < 0.7:
            west, south = draw.randint(-20_000_000, 20_000_000), draw.randint(-20_000_000, 20_000_000)
            it |= dict(zip(SIDES, (west, south, west + draw.randint(0, 4_000_000), south + draw.randint(0, 4_000_000))))
        rows.append(it)
    return rows


@dataclass
class Listing(Standing):
    """A server that has these changesets: it gives each by its number, and the newest hundred of those that pass its own filters."""

    rows: list[Row] = field(default_factory=list)
    pause: float = 0.0
    reads: int = 0

    def reply(self, asked: Request) -> Reply:
        name, _, number = asked.path.removeprefix("/api/0.6/").partition("/")
        if name == "changesets":
            query = {name: values[0] for name, values in parse_qs(asked.query).items()}
            return whole({"changesets": [it for it in self.rows[::-1] if passes(it, query)][:100]})
        if name == "changeset" and int(number) <= len(self.rows):
            self.reads += 1
            time.sleep(self.pause)
            return whole({"changeset": self.rows[int(number) - 1]})
        return self.next


def whole(members: Row) -> Reply:
    return Reply(200, json.dumps({**members, "version": "0.6"}).encode(), False)


def ids(gateway: Gateway, query: Query) -> list[int]:
    return [it["id"] for it in json.loads(gateway.well("GET", f"changesets.json?{urlencode(query)}"))["changesets"]]


def drawn_query(draw: random.Random, rows: list[Row], users: tuple[str, ...]) -> Query:
    """With moments at which something was created or closed, a second before and behind, and of nowhere near."""

    def moment() -> str:
        row = draw.choice(rows)
        at = datetime.fromisoformat(draw.choice((row["created_at"], row.get("closed_at", row["created_at"]))))
        return stamp(at + timedelta(seconds=draw.choice((-1, 0, 0, 0, 1)))) if draw.random() < 0.9 else draw.choice(("2000-01-01T00:00:00Z", "2039-01-01T00:00:00Z"))

    query: Query = {}
    for name, chance, value in (
        ("from", 0.3, moment), ("to", 0.3, moment), ("limit", 0.5, lambda: str(draw.choice((1, 3, 100)))), ("order", 0.4, lambda: draw.choice(("oldest", "newest"))),
        ("time", 0.4, lambda: moment() + (f",{moment()}" if draw.random() < 0.5 else "")), ("user", 0.4, lambda: draw.choice(users)),
        ("bbox", 0.3, lambda: draw.choice(BOXES)), (draw.choice(("open", "closed")), 0.2, lambda: "true"),
    ):  # fmt: skip
        if draw.random() < chance:
            query[name] = value()
    return query


def compared(gateway: Gateway, rows: list[Row], users: tuple[str, ...], queries: int) -> int:
    """How many queries had to look behind the newest hundred."""
    draw, further = random.Random(SEED), 0
    for _ in range(queries):
        query = drawn_query(draw, rows, users)
        found = wanted(rows, query)
        want(ids(gateway, query), found, f"changesets by {query}")
        further += bool(found) and min(found) <= len(rows) - 100
    return further


# ---- what is tried


def boxed(it: Row) -> str | None:
    """South, west, north and east, as GeoRSS has them."""
    return " ".join(f"{it[name] / 10_000_000:.7f}" for name in ("minlat7", "minlon7", "maxlat7", "maxlon7")) if "minlon7" in it else None


def said(it: Row) -> str:
    count = it["changes_count"]
    return (f"{it['tags']['comment']}\n" if it["tags"] else "") + ("1 change" if count == 1 else f"{count} changes")


def as_feeds(gateway: Gateway, rows: list[Row]) -> None:
    """Of all, of boxes and of users, each with its box and what is said of it."""
    feeds: list[tuple[str, Query]] = [("", {}), *(("", {"bbox": box}) for box in BOXES), *((name, {"display_name": name}) for name in ("bob", "Ünï Cödé"))]
    for name, query in feeds:
        path = f"/user/{quote(name)}/history/feed" if name else f"/history/feed?{urlencode(query)}"
        items = ET.fromstring(gateway.ask("GET", path).body).findall("channel/item")
        found = [int((it.findtext("link") or "").rpartition("/")[2]) for it in items]
        want(found, wanted(rows, query), f"the feed of {query}")
        shown = [(it.findtext("{http://www.georss.org/georss}box"), it.findtext("description")) for it in items]
        want(shown, [(boxed(it), said(it)) for it in (rows[number - 1] for number in found)], f"what the feed of {query} says")
    for path in ("/user/nobody/history/feed", "/history/feed?display_name=nobody"):
        want(gateway.ask("GET", path).status, 404, path)


def drawn() -> str:
    rows = drawn_rows(random.Random(SEED), COUNT)
    with Listing(rows=rows) as listing, Gateway(listing.port) as gateway:
        further = compared(gateway, rows, ("1", "2", "3"), QUERIES)
        as_feeds(gateway, rows)
        # All of a user by pages, as clients read on: up to the moment of the last one that came.
        page, pages = ids(gateway, {"display_name": "bob", "limit": "50"}), list[int]()
        while page and page[-1] not in pages:
            pages += [number for number in page if number not in pages]
            page = ids(gateway, {"user": "2", "limit": "50", "time": f"2000-01-01,{rows[page[-1] - 1]['created_at']}"})
        want(pages, [it["id"] for it in rows[::-1] if it["uid"] == 2], "all changesets of a user, page by page")
        listing.reads = 0
        query = {"user": "2", "to": rows[400]["created_at"], "limit": "20"}
        want(ids(gateway, query), wanted(rows, query), "what is known")
        want(listing.reads <= 25, True, f"reads where all is known: {listing.reads}")
        # A server that began anew has others under the same numbers.
        listing.rows = rows = drawn_rows(random.Random(SEED + 1), COUNT - 300)
        compared(gateway, rows, ("1", "2", "3"), 40)
    return f"{QUERIES} drawn searches of {COUNT} changesets, {further} of them behind the newest hundred"


def slow() -> str:
    """What takes too long is told with a status at which clients try again, and is found then."""
    rows = drawn_rows(random.Random(SEED), 700)
    query: Query = {"user": "2", "order": "oldest"}
    with Listing(rows=rows, pause=0.04) as listing, Gateway(listing.port) as gateway:
        for tries in range(1, 5):
            came = gateway.api("GET", f"changesets.json?{urlencode(query)}")
            if came.status == 200:
                break
            has(came.text, "Older changesets are being read", "why it isn't answered yet")
            want((came.status, came.fields["Retry-After"]), (503, "5"), "when to try again")
        want([it["id"] for it in json.loads(came.body)["changesets"]], wanted(rows, query), "a user's oldest hundred")
        want(tries > 1, True, "a search that takes too long")
    return f"one at a slow server after {tries} tries"


def at_a_server(program: str) -> str:
    """With boxes, closed ones and two users at a real server, which is asked for each by its number."""
    draw = random.Random(SEED)
    with Server(program, 12, USERS) as server, Gateway(server.port) as gateway:
        links = {token: Link(server.port, token) for token in ("alicetoken", "bobtoken")}
        for number in range(1, 261):
            link = links[draw.choice(("alicetoken", "bobtoken"))]
            link.ask("PUT", "changeset/create", {"tags": {"comment": "<&>ü"}} if draw.random() < 0.5 else None)
            if draw.random() < 0.6:
                place = {"lat7": draw.randint(-20_000_000, 20_000_000), "lon7": draw.randint(-20_000_000, 20_000_000)}
                link.ask("POST", f"changeset/{number}/upload", {"osmChange": [{"create": [{"type": "node", "id": -1, **place}]}]})
            if draw.random() < 0.8:
                link.ask("PUT", f"changeset/{number}/close")
            if number % 60 == 0:
                time.sleep(1.1)
        rows = [link.ask("GET", f"changeset/{number}").read()["changeset"] for number in range(1, 261)]
        further = compared(gateway, rows, ("1", "2"), QUERIES // 2)
        as_feeds(gateway, rows)
    return f"{QUERIES // 2} of 260 changesets at a server, {further} of them so"


def run(program: str) -> str:
    return "; ".join((drawn(), slow(), at_a_server(program)))
