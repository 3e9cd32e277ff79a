"""Kept links to a server or a mirror, with many requests on their way at a time (HTTP/1.1 pipelining)."""

from __future__ import annotations

import re
import socket
from collections.abc import Callable, Iterator, Sequence
from dataclasses import dataclass
from urllib.parse import urlsplit

MOST_REQUESTS = 1_000  # on one link; the server ends it behind them
HALF = 64  # requests that are written at once; so many again may be on their way meanwhile
HALF_BYTES = 1 << 20
LENGTH = re.compile(rb"\r\ncontent-length: *(\d+)", re.IGNORECASE)
CLOSES = re.compile(rb"\r\nconnection: *close", re.IGNORECASE)


class Lost(Exception):
    """A link couldn't be made, or ended before a reply was whole: it isn't known what was done of what was asked."""


@dataclass(frozen=True, slots=True)
class Reply:
    status: int
    body: bytes
    closes: bool


class Link:
    """One connection. Replies come in the order of the requests."""

    def __init__(self, url: str, seconds: float) -> None:
        parts = urlsplit(url)
        self.url, self.left = url, MOST_REQUESTS
        try:
            self.stream = socket.create_connection((parts.hostname or "", parts.port or 80), seconds)
        except OSError as why:
            raise Lost(f"{url}: {why}") from why
        self.stream.setsockopt(socket.IPPROTO_TCP, socket.TCP_NODELAY, 1)
        self.held = bytearray()
        self.read = 0

    def send(self, requests: Sequence[bytes]) -> None:
        self.left -= len(requests)
        try:
            self.stream.sendall(b"".join(requests))
        except OSError as why:
            raise Lost(f"{self.url}: {why!r}") from why

    def receive(self) -> Reply:
        while (end := self.held.find(b"\r\n\r\n", self.read)) < 0:
            self.take_more()
        head = bytes(self.held[self.read : end + 2])
        found = LENGTH.search(head)
        if found is None or not head.startswith(b"HTTP/1.1 "):
            raise Lost(f"{self.url}: a reply begins with {head[:60]!r}")
        self.read, length = end + 4, int(found[1])
        while len(self.held) - self.read < length:
            self.take_more()
        body = bytes(self.held[self.read : self.read + length])
        self.read += length
        return Reply(int(head[9:12]), body, CLOSES.search(head) is not None)

    def take_more(self) -> None:
        try:
            part = self.stream.recv(1 << 18)
        except OSError as why:
            raise Lost(f"{self.url}: {why!r}") from why
        if not part:
            raise Lost(f"{self.url} ended the link")
        del self.held[: self.read]  # here, once a part and not once a reply
        self.read = 0
        self.held += part

    def close(self) -> None:
        self.stream.close()


class Site:
    """A server or a mirror for one caller. Links are made as they are needed, and each new one is greeted before it is used."""

    def __init__(self, url: str, token: str = "", seconds: float = 300, greet: Callable[[Link], None] | None = None) -> None:
        self.url, self.seconds, self.greet = url.rstrip("/"), seconds, greet
        host = urlsplit(url).netloc
        caller = f"Authorization: Bearer {token}\r\n" if token else ""
        self.fields = f"HTTP/1.1\r\nHost: {host}\r\n{caller}"
        self.link: Link | None = None

    def get(self, path: str) -> bytes:
        return f"GET /api/0.6/{path} {self.fields}\r\n".encode()

    def put(self, path: str) -> bytes:
        return f"PUT /api/0.6/{path} {self.fields}\r\n".encode()

    def post(self, path: str, body: bytes) -> bytes:
        return f"POST /api/0.6/{path} {self.fields}Content-Length: {len(body)}\r\n\r\n".encode() + body

    def ask(self, request: bytes) -> Reply:
        return next(self.exchange([request]))

    def exchange(self, requests: Sequence[bytes]) -> Iterator[Reply]:
        """The replies, one after another, over as many links as it takes; Lost where one is lost. Who leaves off ends the link."""
        answered = 0
        while answered < len(requests):
            link = self.open_link()
            sent, end = answered, min(len(requests), answered + link.left)
            try:
                while answered < end:
                    while sent < end and sent - answered <= HALF:
                        part = next_part(requests, sent, end)
                        link.send(part)
                        sent += len(part)
                    reply = link.receive()
                    answered += 1
                    if reply.closes:
                        sent = end = answered
                        self.close()
                    yield reply
            finally:
                if sent != answered or link.left == 0:
                    self.close()

    def open_link(self) -> Link:
        if self.link is None:
            link = Link(self.url, self.seconds)
            try:
                if self.greet is not None:
                    self.greet(link)
            except BaseException:
                link.close()
                raise
            self.link = link
        return self.link

    def close(self) -> None:
        if self.link is not None:
            self.link.close()
            self.link = None


def next_part(requests: Sequence[bytes], start: int, end: int) -> Sequence[bytes]:
    """What is written at once: some requests, of so many bytes that nobody waits for the other side to read."""
    stop, size = start, 0
    while stop < min(end, start + HALF) and (size == 0 or size + len(requests[stop]) <= HALF_BYTES):
        size += len(requests[stop])
        stop += 1
    return requests[start:stop]
