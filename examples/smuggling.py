#!/usr/bin/env python3
"""Request smuggling: examples/smuggling.py [--program ./osm] [--nginx nginx] [--others 12]

Starts `PROGRAM serve` and an nginx that passes requests on to it over kept links, both on free ports of the
loopback: once as usual, and once so that it passes on all the fields that it would leave out. Sends requests of
which two readers may disagree where they end (RFC 9112, sections 2.2, 5 and 6), most with a second request in
what may be their body, directly and by nginx, and tells the statuses that each gets. Directly the first must be
that of docs/API.md, and where two readers may disagree nothing more may be answered on that link. After each,
`others` new clients ask by nginx for an element of their own that never was, and each reply must name that
element. Status 0 where all of it holds, 1 where something doesn't.
"""

from __future__ import annotations

import argparse
import os
import subprocess
import sys
import tempfile
from typing import NamedTuple

import serving
from serving import Lost, Replies, Server, connect, free_port, request, takes_links, wait_for_answer

USERS = "1 alicetoken user alice\n"
HIDDEN = b"GET /api/0.6/node/666 HTTP/1.1\r\nHost: localhost\r\n\r\n"
CHUNKS = b"0\r\n\r\n" + HIDDEN
CONFIG = """
daemon off; master_process off; pid %(folder)s/pid; error_log %(folder)s/errors;
events { worker_connections 256; }
http {
    access_log off;
    client_body_temp_path %(folder)s/a; proxy_temp_path %(folder)s/b; fastcgi_temp_path %(folder)s/c;
    uwsgi_temp_path %(folder)s/d; scgi_temp_path %(folder)s/e;
    upstream map { server 127.0.0.1:%(map)d; keepalive 4; }
    proxy_http_version 1.1; proxy_set_header Connection "";
    server { listen 127.0.0.1:%(usual)d; location / { proxy_pass http://map; } }
    server {
        listen 127.0.0.1:%(lax)d; ignore_invalid_headers off; underscores_in_headers on; merge_slashes off;
        location / { proxy_pass http://map; proxy_request_buffering off; }
    }
}
"""


class Case(NamedTuple):
    """Fields and a body behind `PUT changeset/create`, and the status that must come first. `ends` says that the
    link ends with it."""

    name: str
    fields: bytes
    body: bytes
    status: int
    ends: bool = True

    def bytes(self) -> bytes:
        return b"PUT /api/0.6/changeset/create HTTP/1.1\r\nHost: localhost\r\n" + self.fields + b"\r\n" + self.body


def length(value: bytes) -> bytes:
    return b"Content-Length: " + value + b"\r\n"


LONG = length(b"%d" % len(CHUNKS))
CODING = b"Transfer-Encoding: chunked\r\n"
CASES = [
    Case("two lengths", length(b"0") + length(b"%d" % len(HIDDEN)), HIDDEN, 400),
    Case("two lengths, the longer first", length(b"%d" % len(HIDDEN)) + length(b"0"), HIDDEN, 400),
    Case("one length twice", length(b"0") + length(b"0"), b"", 401, False),
    Case("two lengths in one field", length(b"0, %d" % len(HIDDEN)), HIDDEN, 400),
    Case("one length twice in one field", length(b"0, 0"), HIDDEN, 400),
    Case("a length with a sign", length(b"+0"), HIDDEN, 400),
    Case("a negative length", length(b"-1"), HIDDEN, 400),
    Case("a length in base 16", length(b"0x0"), HIDDEN, 400),
    Case("a length of two numbers", length(b"0 0"), HIDDEN, 400),
    Case("an empty length", length(b""), HIDDEN, 400),
    Case("a length past 64 bits", length(b"18446744073709551616"), HIDDEN, 413),
    Case("length and coding", LONG + CODING, CHUNKS, 501),
    Case("coding and length", CODING + LONG, CHUNKS, 501),
    Case("coding alone", CODING, CHUNKS, 501),
    Case("an unknown coding and a length", LONG + b"Transfer-Encoding: xchunked\r\n", CHUNKS, 501),
    Case("the coding identity and a length", LONG + b"Transfer-Encoding: identity\r\n", CHUNKS, 501),
    Case("two codings", LONG + CODING + b"Transfer-Encoding: identity\r\n", CHUNKS, 501),
    Case("a tab before the coding", LONG + b"Transfer-Encoding:\tchunked\r\n", CHUNKS, 501),
    Case("a byte 11 before the coding", LONG + b"Transfer-Encoding: \x0bchunked\r\n", CHUNKS, 400),
    Case("a space before the colon of the coding", LONG + b"Transfer-Encoding : chunked\r\n", CHUNKS, 400),
    Case("a tab before the colon of the coding", LONG + b"Transfer-Encoding\t: chunked\r\n", CHUNKS, 400),
    Case("a space before the colon of the length", b"Content-Length : %d\r\n" % len(HIDDEN), HIDDEN, 400),
    Case("a space before the coding", LONG + b" Transfer-Encoding: chunked\r\n", CHUNKS, 400),
    Case("a space before the first field", b" X: y\r\n" + LONG, CHUNKS, 400),
    Case("a coding in a folded line", LONG + b"Transfer-Encoding:\r\n chunked\r\n", CHUNKS, 400),
    Case("a length in a folded line", b"Content-Length:\r\n %d\r\n" % len(HIDDEN), HIDDEN, 400),
    Case("a folded line that hides a coding", LONG + b"X: y\r\n\tTransfer-Encoding: chunked\r\n", CHUNKS, 400),
    Case("a NUL in a value", LONG + b"X: a\0b\r\n", CHUNKS, 400),
    Case("a NUL in a name", LONG + b"Transfer\0-Encoding: chunked\r\n", CHUNKS, 400),
    Case("a NUL in a length", length(b"0\0"), HIDDEN, 400),
    Case("a bare CR in a value", LONG + b"X: y\rTransfer-Encoding: chunked\r\n", CHUNKS, 400),
    Case("a bare CR in a length", length(b"0\r%d" % len(HIDDEN)), HIDDEN, 400),
    Case("a bare CR behind a length", b"Content-Length: 0\rX: y\r\n", HIDDEN, 400),
    Case("a bare LF before a coding", LONG + b"X: y\nTransfer-Encoding: chunked\r\n", CHUNKS, 501),
    Case("a bare LF before a length", b"X: y\nContent-Length: %d\r\n" % len(CHUNKS), CHUNKS, 401, False),
    Case("an underscore in a length", b"Content_Length: %d\r\n" % len(HIDDEN) + length(b"0"), b"", 401, False),
    Case("a field without a colon", LONG + b"Transfer-Encoding chunked\r\n", CHUNKS, 400),
    Case("a field without a name", LONG + b": chunked\r\n", CHUNKS, 400),
    Case("a request in a body", length(b"%d" % len(HIDDEN)), HIDDEN, 401, False),
]


class Nginx:
    """nginx before the server, until the end of a `with`."""

    def __init__(self, program: str, port: int) -> None:
        self.folder = tempfile.TemporaryDirectory()
        self.usual, self.lax = free_port(), free_port()
        path = os.path.join(self.folder.name, "config")
        with open(path, "w") as file:
            file.write(CONFIG % {"folder": self.folder.name, "map": port, "usual": self.usual, "lax": self.lax})
        words = [program, "-e", os.path.join(self.folder.name, "errors"), "-c", path]
        self.process = subprocess.Popen(words, stdin=subprocess.DEVNULL)

    def __enter__(self) -> Nginx:
        wait_for_answer("nginx", self.process, lambda: takes_links(self.lax))
        return self

    def __exit__(self, *_: object) -> None:
        self.process.terminate()
        self.process.wait()
        self.folder.cleanup()


def statuses(port: int, data: bytes, wait: float = 0.3) -> tuple[list[int], bool]:
    """The statuses of all that comes, and whether the link ended then."""
    found = []
    with connect(port, wait) as stream:
        replies = Replies(stream)
        try:
            stream.sendall(data)
            while True:
                found.append(replies.next().status)
        except TimeoutError:
            return found, False
        except (OSError, Lost):
            return found, True


class Attack:
    def __init__(self, server: Server, nginx: Nginx, others: int) -> None:
        self.server, self.ports, self.others = server, {"nginx": nginx.usual, "lax nginx": nginx.lax}, others
        self.number, self.wrong = 1_000_000, 0

    def say(self, what: str) -> None:
        self.wrong += 1
        print("wrong:", what)

    def others_answered(self, name: str) -> None:
        """New clients, each of whom asks for an element of its own; the first few at the same time."""
        for way, port in self.ports.items():
            streams = [connect(port, 10) for _ in range(self.others)]
            numbers = [self.number + i for i in range(self.others)]
            self.number += self.others
            for stream, number in zip(streams, numbers):
                stream.sendall(request("GET", f"node/{number}", closes=True))
            for stream, number in zip(streams, numbers):
                replies = Replies(stream)
                reply = replies.next()
                if reply.status != 404 or reply.read().get("id") != number or replies.held:
                    self.say(f"{name}, {way}: {number} was asked for, and {reply} came")
                stream.close()

    def play(self, case: Case) -> None:
        found, ended = statuses(self.server.port, case.bytes())
        if found[:1] != [case.status] or len(found) > 1 or ended != case.ends:
            self.say(f"{case.name}: {found}, {'ended' if ended else 'open'}")
        told = [f"{case.name}: {' '.join(map(str, found))}{' and the end' if ended else ''}"]
        for way, port in self.ports.items():
            found, ended = statuses(port, case.bytes())
            told.append(f"by {way} {' '.join(map(str, found))}{' and the end' if ended else ''}")
        print("; ".join(told), flush=True)
        self.others_answered(case.name)


def main() -> int:
    parser = argparse.ArgumentParser(usage=(__doc__ or "").split("\n\n")[0].partition(": ")[2])
    parser.add_argument("--program", default=serving.OSM)
    parser.add_argument("--nginx", default="nginx")
    parser.add_argument("--others", type=int, default=12)
    it = parser.parse_args()
    with Server(it.program, 16, USERS) as server, Nginx(it.nginx, server.port) as nginx:
        attack = Attack(server, nginx, it.others)
        attack.others_answered("nothing")
        for case in CASES:
            attack.play(case)
    print(f"{len(CASES)} cases, {attack.number - 1_000_000} other clients, {attack.wrong} wrong")
    return 1 if attack.wrong else 0


if __name__ == "__main__":
    sys.exit(main())
