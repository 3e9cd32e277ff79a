"""The links to a server: a few that are kept, and a queue in front of them in the order in which requests came."""

from __future__ import annotations

import asyncio
import re
import time
from collections import deque
from collections.abc import Callable
from dataclasses import dataclass
from urllib.parse import urlsplit

from .refusals import Refused
from .spool import Spool

IDLE = 30.0
"""Seconds after which a link isn't used again: its worker is the server's again, which would let it go after 60."""
CONNECTING, ANSWERING, QUEUED = 5.0, 310.0, 60.0
HEAD = 1 << 14
"""Bytes of a request's head that the server reads."""


class Lost(Exception):
    """A link ended, or what came on it is no reply."""

    def __init__(self, why: BaseException, asked: bool, kept: bool) -> None:
        super().__init__("the link ended" if isinstance(why, asyncio.IncompleteReadError) else str(why) or type(why).__name__)
        self.asked, self.kept, self.is_strange = asked, kept, isinstance(why, (NoReply, asyncio.LimitOverrunError))
        """Whether the whole request may have been read, whether the link was there before it, and whether something else came."""


class NoReply(ValueError):
    """What came isn't of the form of the server's replies."""


class NoAnswer(Refused):
    """No answer of the server came, so somebody else may be asked what only reads."""


class InDoubt(Exception):
    """A change was sent, and no answer of the server came that tells whether it was made."""

    def __init__(self, server: str, why: str, refused: Refused | None = None) -> None:
        super().__init__(why)
        self.server, self.refused = server, refused
        """Who was asked, and what is to be answered where it turns out that nothing was done and nothing is on its way."""


@dataclass(frozen=True)
class Address:
    host: str
    port: int

    @staticmethod
    def of(url: str) -> Address:
        """Of `http://HOST:PORT`, and nothing behind it."""
        parts = urlsplit(url)
        if parts.scheme != "http" or not parts.hostname or parts.path not in ("", "/") or parts.query:
            raise ValueError(f"{url} isn't http://HOST:PORT")
        return Address(parts.hostname, parts.port or 80)

    @property
    def url(self) -> str:
        return f"http://{self.authority}"

    @property
    def authority(self) -> str:
        """As it stands in an address and in the field Host."""
        return f"[{self.host}]:{self.port}" if ":" in self.host else f"{self.host}:{self.port}"


@dataclass(frozen=True)
class Request:
    method: str
    head: bytes
    body: Spool | None
    reply: Spool
    """What the body of the reply is written to."""

    @property
    def changes(self) -> bool:
        return self.method != "GET"


@dataclass(frozen=True)
class Reply:
    status: int
    body: Spool


def head_of(address: Address, method: str, target: str, token: str | None = None, body: Spool | None = None) -> bytes:
    fields = [f"{method} {target} HTTP/1.1", f"Host: {address.authority}"]
    fields += [f"Authorization: Bearer {token}"] if token else []
    fields += ["Content-Type: application/json", f"Content-Length: {body.size}"] if body else []
    head = ("\r\n".join(fields) + "\r\n\r\n").encode("ascii")
    if len(head) > HEAD:
        raise Refused(414, f"The address is too long: the server reads {HEAD} bytes")
    return head


def fields_of(head: bytes) -> tuple[int, dict[str, str]]:
    """The status of a head and its fields, names and values in lower case."""
    first, *lines = head.decode("latin-1").split("\r\n")
    found = re.match(r"HTTP/1\.[01] ([1-5][0-9]{2})(?: |$)", first)
    if not found:
        raise NoReply("no reply of HTTP came")
    pairs = (line.lower().partition(":") for line in lines if line)
    return int(found[1]), {name.strip(): value.strip() for name, _, value in pairs}


def length_of(fields: dict[str, str]) -> int:
    """The server tells the length of each reply."""
    text = fields.get("content-length", "")
    if not re.fullmatch("[0-9]{1,15}", text) or "transfer-encoding" in fields:
        raise NoReply("the reply doesn't tell its length")
    return int(text)


class Link:
    """A place for one connection, which is made when it is needed."""

    def __init__(self, address: Address) -> None:
        self.address = address
        self.reader: asyncio.StreamReader | None = None
        self.writer: asyncio.StreamWriter | None = None
        self.used, self.sent = 0.0, False
        """When it was used last, and whether the last byte of the request was given to it, so that the server may have it whole."""

    def close(self) -> None:
        if self.writer is not None:
            self.writer.transport.abort()
        self.reader = self.writer = None

    async def connect(self) -> bool:
        """Whether the connection was there already."""
        if self.reader is not None and time.monotonic() - self.used < IDLE:
            if self.reader.exception() is None and not self.reader.at_eof():
                return True
        self.close()
        try:
            opening = asyncio.open_connection(self.address.host, self.address.port)
            self.reader, self.writer = await asyncio.wait_for(opening, CONNECTING)
        except (OSError, TimeoutError) as why:
            raise Lost(why, asked=False, kept=False) from None
        return False

    async def ask(self, request: Request) -> Reply:
        """The reply to a request; the connection is closed where anything else than a whole reply came."""
        self.sent = False
        return await self.exchange(request, await self.connect())

    async def exchange(self, request: Request, kept: bool) -> Reply:
        assert self.reader and self.writer
        whole = False
        try:
            await self.send(self.writer, request)
            reply, stays = await self.reply(self.reader, request.reply)
            whole, self.used = stays, time.monotonic()
            return reply
        except (OSError, asyncio.IncompleteReadError, asyncio.LimitOverrunError, NoReply) as why:
            raise Lost(why, asked=self.sent, kept=kept) from None
        finally:
            if not whole:
                self.close()

    async def send(self, writer: asyncio.StreamWriter, request: Request) -> None:
        """The server does nothing for a request whose last byte it hasn't, so all before that can't have changed anything."""
        left = request.body.size if request.body else 0
        self.sent = not left
        writer.write(request.head)
        for piece in request.body.pieces() if request.body else ():
            left -= len(piece)
            self.sent = not left
            writer.write(piece)
            await writer.drain()

    async def reply(self, reader: asyncio.StreamReader, body: Spool) -> tuple[Reply, bool]:
        status, fields = fields_of(await reader.readuntil(b"\r\n\r\n"))
        left = length_of(fields)
        while left:
            data = await reader.read(min(left, 1 << 16))
            if not data:
                raise asyncio.IncompleteReadError(b"", left)
            body.write(data)
            left -= len(data)
        return Reply(status, body), fields.get("connection") != "close"


class Links:
    """A server behind so many links. `tell` gets a line where it is lost, and one where it answers again."""

    def __init__(
        self, name: str, address: Address, count: int, tell: Callable[[str], None],
        link: Callable[[Address], Link] = Link, answering: float = ANSWERING,
    ) -> None:  # fmt: skip
        self.name, self.address, self.tell, self.answering = name, address, tell, answering
        self.links = [link(address) for _ in range(count)]
        self.free = list(self.links)
        self.waiting: deque[asyncio.Future[Link]] = deque()
        self.is_lost = False

    def close(self) -> None:
        for link in self.links:
            link.close()

    def rest(self) -> None:
        """Lets go of links that nobody used for a while, each of which has a worker of the server for itself; again and again."""
        for link in self.free:
            if time.monotonic() - link.used > IDLE:
                link.close()
        asyncio.get_running_loop().call_later(IDLE / 3, self.rest)

    # ---- the queue

    async def take(self) -> Link:
        """A free link; whoever came first gets the next one. The one that was used last is taken, so that few are kept."""
        if self.free and not self.waiting:
            return self.free.pop()
        place: asyncio.Future[Link] = asyncio.get_running_loop().create_future()
        self.waiting.append(place)
        try:
            async with asyncio.timeout(QUEUED):
                return await place
        except TimeoutError:
            self.leave(place)
            raise NoAnswer(503, f"{self.name} is busy: no link to it was free for {QUEUED:.0f} seconds") from None
        except asyncio.CancelledError:
            self.leave(place)
            raise

    def leave(self, place: asyncio.Future[Link]) -> None:
        """Somebody doesn't wait any longer, perhaps just when a link was handed over."""
        if place.done() and not place.cancelled():
            self.give(place.result())
        place.cancel()

    def give(self, link: Link) -> None:
        while self.waiting:
            place = self.waiting.popleft()
            if not place.done():
                place.set_result(link)
                return
        self.free.append(link)

    # ---- asking

    async def ask(self, method: str, target: str, token: str | None, body: Spool | None, reply: Spool) -> Reply:
        """Refused where nothing was done; InDoubt where a change may have been made and its answer didn't come."""
        request = Request(method, head_of(self.address, method, target, token, body), body, reply)
        link = await self.take()
        try:
            async with asyncio.timeout(self.answering):
                return await self.answered(link, request)
        except TimeoutError:
            if request.changes and link.sent:
                raise InDoubt(self.name, f"no answer within {self.answering:.0f} seconds") from None
            raise NoAnswer(504, f"{self.name} didn't answer within {self.answering:.0f} seconds") from None
        except Refused as why:
            # No room for the reply to a change, which has been made or refused by then.
            if request.changes and link.sent:
                raise InDoubt(self.name, why.text, why) from None
            raise
        finally:
            self.give(link)

    async def answered(self, link: Link, request: Request) -> Reply:
        try:
            reply = await link.ask(request)
        except Lost as why:
            # A server that was started anew has let a kept link go: a read is asked again, and what wasn't sent whole.
            if why.kept and not (request.changes and why.asked):
                request.reply.clear()
                return await self.answered(link, request)
            raise self.lost(why, request) from None
        self.found()
        return reply

    # ---- whether the server is there

    def lost(self, why: Lost, request: Request) -> Exception:
        if not self.is_lost:
            self.is_lost = True
            self.tell(f"{self.name}, {self.address.url}, can't be reached: {why}")
        if why.asked and request.changes:
            return InDoubt(self.name, str(why))
        if why.is_strange:
            return NoAnswer(502, f"What {self.name} sent is no reply of it: {why}")
        return NoAnswer(503, f"{self.name} can't be reached at the moment, nothing was done")

    def found(self) -> None:
        if self.is_lost:
            self.is_lost = False
            self.tell(f"{self.name} answers again")
