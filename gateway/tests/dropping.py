"""A proxy between the gateway and a server that loses what it is told to lose: replies, requests, or both for a while."""

from __future__ import annotations

import re
import socket
import socketserver
import threading
import time
from collections.abc import Callable
from dataclasses import dataclass, field
from typing import Any

from serving import connect

Fate = str
"""`pass`; `reply`: the request is answered and the reply lost; `half`: half of the reply comes; `request`: the server never gets it;
`late`: the link ends first, and the server gets it half a second later; `502`: answered by the server, and by a page of the proxy."""
PAGE = b"<html>Bad Gateway at 10.0.0.7</html>"
LATE = 0.5


def every_third(number: int, _: str) -> Fate:
    return "reply" if number % 3 == 0 else "pass"


def message(file: Any) -> tuple[bytes, bytes] | None:
    """The head and the body of the next request or reply on a stream."""
    head = b""
    while not head.endswith(b"\r\n\r\n"):
        line = file.readline()
        if not line:
            return None
        head += line
    found = re.search(rb"(?i)\r\ncontent-length: *([0-9]+)", head)
    return head, file.read(int(found[1])) if found else b""


@dataclass
class Dropping:
    """`fate` says what becomes of a change, by its number from 1 on and its first line; reads pass."""

    server: int
    fate: Callable[[int, str], Fate] = every_third
    changes: int = 0
    lost: int = 0
    lock: threading.Lock = field(default_factory=threading.Lock)

    def __enter__(self) -> Dropping:
        dropping = self

        class Between(socketserver.StreamRequestHandler):
            disable_nagle_algorithm = True

            def handle(self) -> None:
                try:
                    with connect(dropping.server) as there:
                        while (asked := message(self.rfile)) is not None and dropping.passed(asked, there, self.wfile):
                            pass
                except OSError:
                    pass  # one of the two is gone, so the other's link ends

        class Serving(socketserver.ThreadingTCPServer):
            daemon_threads, allow_reuse_address, request_queue_size = True, True, 64

        self.proxy = Serving(("127.0.0.1", 0), Between)
        self.port: int = self.proxy.server_address[1]
        threading.Thread(target=self.proxy.serve_forever, daemon=True).start()
        return self

    def __exit__(self, *_: object) -> None:
        self.proxy.shutdown()
        self.proxy.server_close()

    def fate_of(self, head: bytes) -> Fate:
        line = head.split(b"\r\n", 1)[0].decode("latin-1")
        if line.startswith("GET "):
            return "pass"
        with self.lock:
            self.changes += 1
            fate = self.fate(self.changes, line)
            self.lost += fate != "pass"
        return fate

    def passed(self, asked: tuple[bytes, bytes], there: socket.socket, here: Any) -> bool:
        """Passes a request and its reply on as its fate is; whether the link goes on."""
        fate = self.fate_of(asked[0])
        if fate == "request":
            return False
        if fate == "late":
            threading.Thread(target=self.later, args=(asked,), daemon=True).start()
            return False
        there.sendall(asked[0] + asked[1])
        with there.makefile("rb") as file:
            came = message(file)
        if came is None or fate == "reply":
            return False
        text = came[0] + came[1]
        if fate == "502":
            text = b"HTTP/1.1 502 Bad Gateway\r\nContent-Length: %d\r\n\r\n" % len(PAGE) + PAGE
        here.write(text[: len(text) // 2] if fate == "half" else text)
        return fate != "half" and b"\r\nConnection: close" not in came[0]

    def later(self, asked: tuple[bytes, bytes]) -> None:
        time.sleep(LATE)
        with connect(self.server) as there:
            there.sendall(asked[0] + asked[1])
            with there.makefile("rb") as file:
                message(file)
