#!/usr/bin/python3
"""Keeps a copy of a server's journal on this machine: examples/fleet/copy_keeper.py COPY --listen HOST:PORT [--begin]

`osm serve --journal FILE+tcp://HOST:PORT` sends what FILE has when it starts, and then each write, each room and each cut. All of it is
done to COPY too, and answered once it is on the disk; the server answers nobody before. COPY is made where there is none. It is taken for a
server's copy only where its text is a beginning of what that server has: else it is left as it is, and the server ends with status 3. A
COPY without changes takes up those of a server only with --begin: an old server that comes back would else find a keeper again behind a
takeover. One server at a time is served; another one is refused meanwhile. The lines tell who is served, and who is refused and why.

COPY is locked while this runs, so that no server can be started on it. SIGTERM and SIGINT end it with status 0. Where the server's machine
is gone for good, end this, and start `osm serve --journal COPY` here. Status 1 where COPY can't be had or its disk fails: then the server
has been told so, and ends too. docs/JOURNAL.md has what is sent ("A copy of a file").
"""

from __future__ import annotations

import argparse
import select
import signal
import socket
import struct
import sys
import time
from collections.abc import Callable, Iterator
from contextlib import suppress

import scripts
from copy_file import PIECE, CopyFile, Refused

NAME = "copy_keeper"
GREETING = b"hegunsap-copy-1\n"
DONE, REFUSED = b"+", b"-"
NUMBER, PAIR = struct.Struct(">Q"), struct.Struct(">QQ")
MANY = 4096  # calls that one sync serves at most
GREET = 10.0  # seconds for the greeting
SILENCE = 60.0  # seconds without a byte in the middle of something
LINGER = 2.0  # seconds in which a refused server may read that it is
ALIVE = ((socket.TCP_KEEPIDLE, 20), (socket.TCP_KEEPINTVL, 10), (socket.TCP_KEEPCNT, 4))  # a machine that is gone is seen in a minute


class Gone(Exception):
    """How a link ended."""


class Ended(Exception):
    """A signal came."""


class Port:
    """Takes one link at a time, and refuses others meanwhile. Ended, wherever something is waited for, behind a signal."""

    def __init__(self, host: str, port: int) -> None:
        family = socket.AF_INET6 if ":" in host else socket.AF_INET
        self.listener = socket.create_server((host, port), family=family)
        self.listener.setblocking(False)
        self.signals, waker = socket.socketpair()
        waker.setblocking(False)
        self.waker = waker
        signal.set_wakeup_fd(waker.fileno())
        for it in (signal.SIGTERM, signal.SIGINT):
            signal.signal(it, lambda *_: None)

    def address(self) -> str:
        return address_of(self.listener.getsockname())

    def next_link(self) -> socket.socket:
        while True:
            if self.listener in self.ready(None, self.listener):
                with suppress(OSError):  # it may be gone again
                    return self.listener.accept()[0]

    def has_bytes(self, stream: socket.socket, seconds: float | None) -> bool:
        """Whether something comes within so many seconds, or at last where there are none."""
        until = None if seconds is None else time.monotonic() + seconds
        while True:
            ready = self.ready(None if until is None else max(0.0, until - time.monotonic()), stream, self.listener)
            if stream in ready or not ready:
                return bool(ready)
            self.refuse_another()

    def ready(self, seconds: float | None, *streams: socket.socket) -> list[socket.socket]:
        ready: list[socket.socket] = select.select((self.signals, *streams), (), (), seconds)[0]
        if self.signals in ready:
            raise Ended
        return ready

    def refuse_another(self) -> None:
        with suppress(OSError):
            stream, address = self.listener.accept()
            with stream:
                scripts.say(NAME, f"{address_of(address)} is refused: another server is served")
                stream.send(REFUSED)


class Link:
    """A server's link. Answers that are owed are sent before anything is waited for, behind one sync for all of them."""

    def __init__(self, stream: socket.socket, port: Port, sync: Callable[[], None]) -> None:
        self.stream, self.port, self.sync = stream, port, sync
        self.name, self.held, self.owed = "a link", bytearray(), 0
        with suppress(OSError):  # where it is gone already, which its first read tells
            self.name = address_of(stream.getpeername())
            stream.settimeout(SILENCE)
            stream.setsockopt(socket.IPPROTO_TCP, socket.TCP_NODELAY, 1)
            stream.setsockopt(socket.SOL_SOCKET, socket.SO_KEEPALIVE, 1)
            for option, value in ALIVE:
                stream.setsockopt(socket.IPPROTO_TCP, option, value)

    def read(self, count: int, seconds: float | None = SILENCE) -> bytearray:
        """So many bytes, which may each take so many seconds to come."""
        while len(self.held) < count:
            self.held += self.receive(seconds)
        if 2 * count < len(self.held):
            data = self.held[:count]
            del self.held[:count]
            return data
        # The longer part isn't copied.
        data, self.held = self.held, self.held[count:]
        del data[count:]
        return data

    def receive(self, seconds: float | None) -> bytes:
        if not self.port.has_bytes(self.stream, 0):
            self.settle()
            if not self.port.has_bytes(self.stream, seconds):
                raise Gone("silent in the middle of what it sends")
        try:
            part = self.stream.recv(PIECE)
        except OSError as why:
            raise Gone(str(why)) from None
        if not part:
            raise Gone("" if seconds is None and not self.held else "in the middle of what it sends")
        return part

    def pieces(self, count: int) -> Iterator[bytes]:
        for at in range(0, count, PIECE):
            yield bytes(self.read(min(PIECE, count - at)))

    def number(self) -> int:
        return int(NUMBER.unpack(self.read(NUMBER.size))[0])

    def pair(self) -> tuple[int, int]:
        first, second = PAIR.unpack(self.read(PAIR.size))
        return int(first), int(second)

    def owe(self) -> None:
        self.owed += 1
        if self.owed >= MANY:
            self.settle()

    def settle(self) -> None:
        if self.owed:
            self.sync()
            self.send(DONE * self.owed)
            self.owed = 0

    def send(self, answer: bytes) -> None:
        try:
            self.stream.sendall(answer)
        except OSError as why:
            raise Gone(str(why)) from None

    def refuse(self) -> None:
        """Lets it read that, also where it is still sending: what is unread at the end of a link would take the answer away."""
        until = time.monotonic() + LINGER
        with suppress(OSError):
            self.stream.sendall(REFUSED)
            self.stream.shutdown(socket.SHUT_WR)
            while (left := until - time.monotonic()) > 0 and select.select((self.stream,), (), (), left)[0] and self.stream.recv(PIECE):
                pass


class Keeper:
    def __init__(self, port: Port, copy: CopyFile) -> None:
        self.port, self.copy = port, copy

    def run(self) -> None:
        with suppress(Ended):
            while True:
                with self.port.next_link() as stream:
                    self.serve(Link(stream, self.port, self.copy.sync))

    def serve(self, link: Link) -> None:
        """To the end of the link. OSError is the disk's: then it isn't known what the copy has, and no other server may be served."""
        try:
            self.begin(link)
            while True:
                self.call(link)
        except Refused as why:
            scripts.say(NAME, f"{link.name} is refused: {why}")
            link.refuse()
        except Gone as why:
            scripts.say(NAME, f"{link.name} is gone{', ' if str(why) else ''}{why}")
        except Ended:
            with suppress(Gone):  # what is done is answered
                link.settle()
            raise
        except OSError as why:
            link.refuse()
            raise OSError(scripts.unwritten(why, self.copy.path) if why.strerror else str(why)) from why

    def begin(self, link: Link) -> None:
        if link.read(len(GREETING), GREET) != GREETING:
            raise Refused("it doesn't greet as a server does")
        count = link.number()
        self.copy.take(count, link.pieces(count))
        link.send(DONE)
        scripts.say(NAME, f"{link.name} is served: {self.copy.path} has its {count} bytes")

    def call(self, link: Link) -> None:
        """The next one, for which any time may pass."""
        kind = bytes(link.read(1, None))
        try:
            self.do(kind, link)
        except Refused:
            link.settle()
            raise
        link.owe()

    def do(self, kind: bytes, link: Link) -> None:
        if kind == b"W":
            at, count = link.pair()
            self.copy.fits(at, count)
            self.copy.write(at, link.read(count))
        elif kind == b"Z":
            self.copy.lay_by(*link.pair())
        elif kind == b"C":
            self.copy.cut(link.number())
        else:
            raise Refused(f"a call of no known kind, {kind!r}")


def address_of(name: tuple[object, ...]) -> str:
    host, port = name[:2]
    return f"[{host}]:{port}" if ":" in str(host) else f"{host}:{port}"


def host_and_port(address: str) -> tuple[str, int]:
    host, colon, port = address.rpartition(":")
    if not (colon and port.isdecimal() and int(port) < 1 << 16):
        raise argparse.ArgumentTypeError(f"{address} isn't HOST:PORT")
    return host.removeprefix("[").removesuffix("]"), int(port)


def keep(path: str, host: str, number: int, *, begins: bool) -> None:
    copy = CopyFile(path, begins=begins)
    port = Port(host, number)
    scripts.say(NAME, f"listens on {port.address()}; {path} has {copy.length} bytes")
    Keeper(port, copy).run()


def main() -> int:
    parser = argparse.ArgumentParser(usage=scripts.usage(__doc__))
    parser.add_argument("copy", metavar="COPY")
    parser.add_argument("--listen", required=True, type=host_and_port, metavar="HOST:PORT", help="port 0 is any free one")
    parser.add_argument("--begin", action="store_true", help="takes up a server's changes where COPY has none")
    words = parser.parse_args()
    return scripts.run(NAME, lambda: keep(words.copy, *words.listen, begins=words.begin))


if __name__ == "__main__":
    sys.exit(main())
