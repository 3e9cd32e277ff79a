"""One call: what was asked, in which form, by whom; and what is answered."""

from __future__ import annotations

import asyncio
import json
import re
from collections.abc import Iterable, Iterator
from dataclasses import dataclass, field
from enum import Enum
from typing import Any
from urllib.parse import parse_qsl, quote

from aiohttp import web

from .blocks import Blocks
from .callers import UNPERMITTED, Caller, Callers, scopes_of
from .changesets_known import Known
from .degrees import NotDecimal, degrees_of, units_of
from .discussions import Discussions
from .doubts import Once
from .json_read import DecimalText
from .limits import Rates, address_of
from .links import InDoubt, Links, Reply
from .log import shown, tell, where
from .metrics import Counts
from .mirrors import Mirrors
from .oauth import OAuth
from .people import People, User
from .refusals import Asked, Refused, refusal
from .room import Room, Share
from .spool import Coding, Spool
from .store import Store
from .turns import Turns
from .users_file import UsersFile
from .walk import OPENED, Event, NotJson, Rows, Walk
from .words import Words
from .xml_texts import Texts

XML_BODY = 1 << 26
"""Bytes of an XML document that is read: twice those of the server's JSON, which says the same in fewer."""
JSON_BODY = 1 << 25
FORM_BODY = 1 << 16
READING, WRITING = 300.0, 300.0

FORBIDDEN = "Only a moderator may do this"
UNCONFIRMED = (
    "This was done, but fewer than {} mirrors had it within {:g} seconds, so it may be lost with the server. "
    "Look whether it is there before you send it again."
)

WHOLE = 1 << 16
"""Characters up to which a document is answered whole."""


READS = ("GET", "HEAD", "OPTIONS")
MODERATORS = "show_redactions="
"""Of a read that has more for moderators: nobody else's answer stands for it."""


class Form(Enum):
    XML = "application/xml"
    JSON = "application/json"
    RSS = "application/rss+xml"
    GPX = "application/gpx+xml"


@dataclass
class Gateway:
    words: Words
    people: People
    server: Links
    notes: Links | None
    room: Room
    store: Store
    users: UsersFile
    turns: Turns = field(default_factory=Turns)
    once: Once = field(default_factory=Once)
    mirrors: Mirrors | None = None
    counts: Counts | None = None
    counted: dict[int, tuple[float, int]] = field(default_factory=dict)
    """How many changesets a user has, and when they were counted."""
    known_changesets: Known = field(default_factory=Known)
    last_note: int = 0
    """The largest id of a note that was seen."""

    def __post_init__(self) -> None:
        self.oauth = OAuth(self.store, self.people)
        self.callers = Callers(self.people, self.oauth.grants, self.words.guesses)
        self.rates = Rates(self.words.rate)
        self.discussions = Discussions(self.store, self.people)
        self.blocks = Blocks(self.store)
        self.overview: Any = None

    def site(self, request: web.Request) -> str:
        """How clients call this host: as --public-url says, or as they did."""
        return self.words.public or f"{request.scheme}://{request.host}"


def quality(accepted: str, *types: str) -> float:
    """How much one of these types is wanted by an Accept field, from 0 to 1."""
    best = 0.0
    for part in accepted.split(","):
        name, *parameters = [it.strip() for it in part.split(";")]
        given = [it[2:] for it in parameters if it.lower().startswith("q=")]
        weight = float(given[0]) if given and re.fullmatch(r"[01](\.[0-9]{0,3})?", given[0]) else 1.0
        if name.lower() in types:
            best = max(best, weight)
    return best


def form_of(request: web.Request) -> Form:
    """By the end of the path, or else by the field Accept; XML where it doesn't matter."""
    end = request.match_info.get("end", "")
    if end:
        return Form[end[1:].upper()]
    accepted = request.headers.get("Accept", "")
    xml = quality(accepted, "application/xml", "text/xml", "*/*", "application/*", "text/*")
    return Form.JSON if quality(accepted, "application/json") > xml else Form.XML


class Call:
    def __init__(self, gateway: Gateway, request: web.Request) -> None:
        self.gateway, self.request = gateway, request
        self.spools: list[Spool] = []
        self.form, self.texts = form_of(request), Texts()
        self.has_changed = False
        """Whether the server of the map was asked for a change, and nobody has waited for the mirrors since."""
        self.breaks = 0
        """Those of the server when this call asked it last."""
        self.caller: Caller = gateway.callers.of(request)
        self.token = self.caller.token
        request["user"] = self.caller.user.name if self.caller.user else None
        if not self.caller.may(*scopes_of(request.method, request.path)):
            raise Refused(403, UNPERMITTED)
        if self.caller.user and request.method not in READS:
            gateway.blocks.refuse(self.caller.user, self.site)
        request["texts"] = self.texts

    @property
    def wants_json(self) -> bool:
        return self.form is Form.JSON

    @property
    def site(self) -> str:
        """What stands before the paths of this host in its links."""
        return self.gateway.site(self.request)

    def spool(self, always: bool = False) -> Spool:
        """Room for a body until the call has ended. `always` is for the answer to a change that was made."""
        self.spools.append(Spool(Share(self.gateway.room, address_of(self.request), always)))
        return self.spools[-1]

    def close(self) -> None:
        for spool in self.spools:
            spool.close()

    def user(self) -> User:
        return self.gateway.people.known(self.token)

    def moderator(self) -> User:
        user = self.user()
        if not user.moderator:
            raise Refused(403, FORBIDDEN)
        return user

    # ---- what was asked

    def path(self, name: str) -> int:
        """A number of the path, which has digits alone there."""
        number = int(self.request.match_info[name])
        if number >= 1 << 63:
            raise Refused(404, f"The number {number} is too large")
        return number

    def query(self, name: str) -> str | None:
        return self.request.query.get(name)

    def passed_on(self, *names: str) -> dict[str, str]:
        """Parameters that the server has under the same name."""
        given = {name: self.request.query[name] for name in names if name in self.request.query}
        if "bbox" in given:
            given["bbox"] = box_of(given["bbox"])
        for name in ("at", "redaction", "user"):
            if name in given and not re.fullmatch("[0-9]{1,19}", given[name]):
                raise Refused(400, f"The parameter {name} is a number")
        return given

    async def body(self, limit: int = JSON_BODY) -> Spool:
        """The body, as it was before it was coded."""
        request, spool, raw = self.request, self.spool(), 0
        coding = Coding(request.headers.get("Content-Encoding", "").strip().lower())
        if not coding.known:
            raise Refused(415, "The Content-Encoding isn't gzip or deflate")
        try:
            async with asyncio.timeout(READING):
                async for data in request.content.iter_any():
                    raw += len(data)
                    for piece in coding.undone(data):
                        spool.write(piece)
                        if max(spool.size, raw) > limit:
                            raise Refused(413, f"The document has more than {limit} bytes")
                        await asyncio.sleep(0)
        except TimeoutError:
            raise Refused(408, f"The document didn't come within {READING:.0f} seconds") from None
        except ValueError as why:
            raise Refused(400, f"The document's coding can't be undone: {why}") from None
        if not coding.is_whole():
            raise Refused(400, "The document's coding ends too early")
        return spool

    async def parameters(self) -> dict[str, str]:
        """The parameters, and before them those of a form or an object of JSON in the body."""
        text = (await self.body(FORM_BODY)).whole().decode("utf-8", "replace")
        given = dict(self.request.query)
        if text.lstrip().startswith("{"):
            try:
                rows = json.loads(text, parse_float=DecimalText)
            except (ValueError, RecursionError):
                raise Refused(400, "Cannot parse the JSON of the parameters") from None
            given |= {name: str(value) for name, value in rows.items() if isinstance(value, (str, int)) and not isinstance(value, bool)}
        else:
            given |= dict(parse_qsl(text, keep_blank_values=True))
        return given

    def too_long(self, limit: int) -> None:
        """Refuses a document by what is said of its length, before it is read."""
        if (self.request.content_length or 0) > limit:
            raise Refused(413, f"The document has more than {limit} bytes")

    async def document(self) -> tuple[Spool, bool]:
        """The body, and whether it is JSON: its type says so, or its first byte."""
        self.too_long(XML_BODY)
        spool = await self.body(XML_BODY)
        first = next(spool.pieces(), b"").lstrip()[:1]
        is_json = first != b"<" and (first == b"{" or self.request.content_type == "application/json")
        if is_json and spool.size > JSON_BODY:
            raise Refused(413, f"A document of JSON has more than {JSON_BODY} bytes")
        return spool, is_json

    # ---- the server

    async def ask(
        self, method: str, path: str, query: dict[str, str] | None = None, body: Spool | None = None, asked: Asked | None = None,
        server: Links | None = None,
    ) -> Spool:  # fmt: skip
        """The body of the server's reply, or its refusal in OSM's words; InDoubt where nobody knows whether a change was made."""
        parameters = "&".join(f"{name}={quote(value, safe=',.-')}" for name, value in (query or {}).items())
        target, links = f"/api/0.6/{path}{'?' if parameters else ''}{parameters}", server or self.gateway.server
        try:
            return await self.replied(method, target, body, asked or Asked(), links, server is None)
        except InDoubt:
            if self.gateway.counts is not None:
                self.gateway.counts.add("lost")
            raise

    async def confirmed(self) -> None:
        """Waits until so many mirrors as are wanted have what was changed; it would be lost with the server before."""
        words, mirrors = self.gateway.words, self.gateway.mirrors
        if not self.has_changed or not words.confirmed_by or mirrors is None:
            return
        self.has_changed = False
        if await mirrors.have_all(words.confirmed_by, words.confirm_seconds, self.breaks):
            return
        if self.gateway.counts is not None:
            self.gateway.counts.add("unconfirmed")
        raise Refused(424, UNCONFIRMED.format(words.confirmed_by, words.confirm_seconds))

    async def replied(self, method: str, target: str, body: Spool | None, asked: Asked, links: Links, of_map: bool) -> Spool:
        self.has_changed = self.has_changed or of_map and method != "GET"
        reply = await self.asked_as(self.token, method, target, body, links, of_map)
        if reply.status == 401 and method == "GET" and self.caller.user is not None and MODERATORS not in target:
            # A user or a token of a new users text isn't known there before its next start: a read is answered as anybody's.
            self.dropped(reply.body)
            reply = await self.asked_as(None, method, target, body, links, of_map)
        if reply.status == 200:
            return reply.body
        refused = refusal(reply.status, reply.body.whole(), asked)
        if reply.status >= 500 and method != "GET":
            raise InDoubt(links.name, f"the answer has the status {reply.status}", refused if refused.said else None)
        raise refused

    async def asked_as(self, token: str | None, method: str, target: str, body: Spool | None, links: Links, of_map: bool) -> Reply:
        if of_map and self.gateway.mirrors is not None:
            self.breaks = self.gateway.mirrors.breaks
            return await self.gateway.mirrors.ask(self, token, method, target, body)
        return await links.ask(method, target, token, body, self.spool(always=method != "GET"))

    async def value(self, *words: Any, **more: Any) -> Any:
        """The same, of a small reply, as a value."""
        reply = await self.ask(*words, **more)
        found = json.loads(reply.whole())
        self.dropped(reply)
        return found

    def dropped(self, reply: Spool) -> None:
        """Before the call's end: it may ask for thousands of small ones."""
        reply.close()
        self.spools.remove(reply)

    async def work(self, pieces: Iterable[str]) -> None:
        """Carries out in turns what tells nothing."""
        async for _ in self.gateway.turns.parts(pieces):
            pass

    async def sent(self, pieces: Iterable[str], always: bool = False) -> Spool:
        """A body for the server, written in turns."""
        spool = self.spool(always)
        try:
            async for part in self.gateway.turns.parts(pieces):
                spool.write(part.encode("utf-8"))
                if spool.size > JSON_BODY:
                    raise Refused(413, f"The document has more than {JSON_BODY} bytes as the server reads it")
        except UnicodeError:
            raise Refused(400, "A text of the document is no Unicode") from None
        return spool

    # ---- what is answered

    def text(self, it: object) -> web.StreamResponse:
        return web.Response(text=str(it), content_type="text/plain")

    def answer(self, text: str) -> web.StreamResponse:
        """A small document."""
        reply = web.Response(text=text, content_type=self.form.value, charset="utf-8")
        self.compress(reply, len(text))
        return reply

    def compress(self, reply: web.StreamResponse, length: int) -> None:
        """Never deflate, which osmosis reads in another form."""
        if length > 1000 and quality(self.request.headers.get("Accept-Encoding", ""), "gzip", "*") > 0:
            reply.enable_compression(web.ContentCoding.gzip)

    async def answer_in_parts(self, pieces: Iterator[str]) -> web.StreamResponse:
        """A document that is written while it is made; a short one is answered whole."""
        parts, held = self.gateway.turns.parts(pieces), ""
        async for part in parts:
            held += part
            if len(held) > WHOLE:
                break
        else:
            return self.answer(held)
        await self.confirmed()
        reply = web.StreamResponse()
        reply.content_type, reply.charset = self.form.value, "utf-8"
        if self.request.method == "HEAD":
            reply.content_length = len(held.encode()) + sum([len(part.encode()) async for part in parts])
            return reply
        self.compress(reply, len(held))
        await reply.prepare(self.request)
        self.request["head"] = head_of(reply)
        try:
            async with asyncio.timeout(WRITING):
                await reply.write(held.encode("utf-8"))
                async for part in parts:
                    await reply.write(part.encode("utf-8"))
                await reply.write_eof()
        except Exception as why:
            # The reply has begun, so all that its reader can be told is that the link ends: nothing may be written behind this.
            told = "its reader was too slow" if isinstance(why, TimeoutError) else where(why)
            tell(f"{self.request.method} {shown(self.request.path)} ended in its middle: {told}")
            if self.request.transport:
                self.request.transport.abort()
        return reply


def head_of(reply: web.StreamResponse) -> int:
    """Bytes that were written before the body."""
    writer: Any = reply._payload_writer  # pylint: disable=protected-access
    return int(writer.output_size)


def events_of(*spools: Spool, rows: Rows | None = None) -> Iterator[Event]:
    """What the replies have, one after another; `rows` takes elements as they stand."""
    for spool in spools:
        try:
            yield from Walk(spool.texts(), OPENED, rows=rows).events()
        except (NotJson, UnicodeDecodeError) as why:
            raise Refused(502, f"The server's reply can't be read: {why}") from None


def number_of(text: str, least: int, most: int) -> int | None:
    """A number of the query within limits, however many zeros stand before it; None where it is none."""
    found = re.fullmatch("(-?)0*([0-9]{1,18})", text)
    number = int(found[1] + found[2]) if found else most + 1
    return number if least <= number <= most else None


FORM = "The parameter bbox is required, and must be of the form min_lon,min_lat,max_lon,max_lat"
WORLD = (
    "The latitudes must be between -90 and 90, longitudes between -180 and 180 "
    "and the minima must be less than the maxima."
)  # fmt: skip


def box_of(text: str | None) -> str:
    """A box as the server reads it, edges rounded as positions are: Java's clients write 5.0E-4."""
    try:
        edges = [units_of(part) for part in (text or "").split(",")]
        west, south, east, north = edges
    except (NotDecimal, ValueError):
        raise Refused(400, FORM) from None
    if not (-1_800_000_000 <= west <= east <= 1_800_000_000 and -900_000_000 <= south <= north <= 900_000_000):
        raise Refused(400, WORLD)
    return ",".join(map(degrees_of, edges))
