#!/usr/bin/env python3
"""Tries nginx.conf: examples/deploy/through_nginx.py [--program PROGRAM] [--seconds 0]

Starts `PROGRAM serve` with four workers and nginx with the site in front of it, on free ports of the loopback and with a
certificate of its own making, and sends by curl and by links of its own what the site is for. Then, for so many seconds each, GETs
by wrk to a server with 64 workers, straight and through nginx. Needs Debian's curl, nginx-light and openssl, and wrk where there are seconds. PROGRAM
is crates/osm/out/osm where none is named. Status 0 where all is as it should be.
"""

from __future__ import annotations

import argparse
import http.client
import os
import re
import signal
import socket
import ssl
import subprocess
import sys
import tempfile
import time
from collections.abc import Iterator
from contextlib import contextmanager
from functools import partial
from typing import Any

HERE = os.path.dirname(os.path.abspath(__file__))
TOP = os.path.join(HERE, "..", "..")
sys.path.insert(0, os.path.join(HERE, ".."))

from nginx import MAIN, words_of
from serving import Replies, Server, Unanswered, Wrong, connect, free_port, trial_status, request, takes_links, wait_for_answer

NAME = "map.example.org"
USERS = "1 alicetoken user alice\n"
WORKERS = 4
MOST = 33554432
NODES = 9000


def want(what: str, wanted: object, came: object) -> None:
    if wanted != came:
        raise Wrong(f"{what}: {came!r} in place of {wanted!r}")


def run(*words: str) -> bytes:
    done = subprocess.run(words, capture_output=True, timeout=120, check=False)
    if done.returncode:
        raise Wrong(f"{' '.join(words)[:200]} ended with status {done.returncode}: {done.stderr.decode()[-300:]}")
    return done.stdout


def site(folder: str, server: int, port: int, kept: int) -> str:
    """The site with other ports and files, and so many links kept by each process of nginx."""
    with open(os.path.join(HERE, "nginx.conf"), encoding="utf-8") as file:
        text = file.read().replace("/etc/hegunsap/tls", folder).replace("keepalive 8;", f"keepalive {kept};")
    text = text.replace("127.0.0.1:8080;", f"127.0.0.1:{server};").replace("listen 443", f"listen 127.0.0.1:{port}")
    return re.sub(r".*listen \[::\].*\n", "", text)


class Front:
    """nginx in front of a server, and calls to it."""

    def __init__(self, folder: str, server: Server) -> None:
        self.folder, self.server, self.port = folder, server, free_port()
        self.trust = ssl.create_default_context(cafile=os.path.join(folder, "certificate.pem"))

    def ask(self, method: str, path: str, body: bytes | None = None, *more: str, token: str = "alicetoken") -> tuple[int, bytes]:
        """A call of curl: its status and the body of the reply."""
        words = ["curl", "-s", "-X", method, "-w", "%{stderr}%{http_code}", "--cacert", f"{self.folder}/certificate.pem"]
        words += ["--resolve", f"{NAME}:{self.port}:127.0.0.1", "-H", f"Authorization: Bearer {token}", *more]
        words += ["--data-binary", "@-"] if body is not None else []
        done = subprocess.run([*words, self.url(path)], input=body or b"", capture_output=True, timeout=60, check=False)
        return int(done.stderr[-3:] or 0), done.stdout

    def url(self, path: str) -> str:
        return f"https://{NAME}:{self.port}/api/0.6/{path}"

    def link(self) -> http.client.HTTPSConnection:
        """A kept link to nginx."""
        link = http.client.HTTPSConnection("127.0.0.1", self.port, timeout=60)
        link.sock = self.trust.wrap_socket(socket.create_connection(("127.0.0.1", self.port), 60), server_hostname=NAME)
        return link


@contextmanager
def front(program: str, workers: int, kept: int) -> Iterator[Front]:
    with tempfile.TemporaryDirectory() as folder, Server(program, workers, USERS) as server:
        os.chmod(folder, 0o755)
        key, certificate = f"{folder}/key.pem", f"{folder}/certificate.pem"
        name = ["-subj", f"/CN={NAME}", "-addext", f"subjectAltName=DNS:{NAME}"]
        run("openssl", "req", "-x509", "-newkey", "ec", "-pkeyopt", "ec_paramgen_curve:P-256", "-nodes", "-keyout", key, "-out", certificate, *name)
        it = Front(folder, server)
        for path, text in (("site.conf", site(folder, server.port, it.port, kept)), ("main.conf", MAIN.format(folder=folder, processes=2))):
            with open(os.path.join(folder, path), "w", encoding="utf-8") as file:
                file.write(text)
        run(*words_of(folder), "-t", "-q")
        nginx = subprocess.Popen(words_of(folder))
        try:
            wait_for_answer("nginx", nginx, lambda: takes_links(it.port))
            yield it
        except Unanswered as why:
            raise Wrong(str(why)) from None
        finally:
            nginx.send_signal(signal.SIGTERM)
            nginx.wait()


# ---- what is tried


def calls(it: Front) -> str:
    """An editor's calls, and refusals with the server's own bodies."""
    node = b'{"osmChange":[{"create":[{"type":"node","id":-1,"lat7":481400000,"lon7":115400000}]}]}'
    want("a changeset", (200, b"1"), it.ask("PUT", "changeset/create"))
    want("an upload", 200, it.ask("POST", "changeset/1/upload", node)[0])
    want("a map", 200, it.ask("GET", "map?bbox=11.5,48.1,11.6,48.2")[0])
    want("an upload in chunks", 200, it.ask("POST", "changeset/1/upload", node, "--http1.1", "-H", "Transfer-Encoding: chunked")[0])
    want("no element", (404, b'{"error":"no_element","id":9,"type":"way"}'), it.ask("GET", "way/9"))
    want("no path", (404, b'{"error":"no_path"}'), it.ask("GET", "capabilities"))
    want("another token", 401, it.ask("GET", "node/1", token="x")[0])
    want("another method", (405, b'{"error":"wrong_method"}'), it.ask("OPTIONS", "node/1"))
    link = it.link()
    came = [ask_on(link, method) for method in ("HEAD", "GET") * 10]
    want("HEAD", {(405, 0)}, set(came[::2]))
    want("GETs behind it", {200}, {status for status, _ in came[1::2]})
    return "calls of curl by HTTP/2 and HTTP/1.1, and refusals with their bodies"


def limits(it: Front) -> str:
    """The longest body is taken; longer ones are refused in one form, by the server and by nginx."""
    for length, wanted in ((MOST, 200), (MOST + 1, 413), (MOST + (2 << 20), 413)):
        body = b'{"x":"%s"}' % (b"x" * (length - 8))
        status, reply = it.ask("PUT", "changeset/create", body)
        want(f"a body of {length} bytes", wanted, status)
        want("the refusal", True, wanted == 200 or reply == b'{"error":"body_long"}')
    ids = ",".join(["1"] * 7000)
    want("a long target", 200, it.ask("GET", f"nodes?nodes={ids}", None, "--http1.1")[0])
    return "bodies to 32 MiB, and targets of 14,000 bytes"


def ask_on(link: http.client.HTTPSConnection, method: str = "GET") -> tuple[int, int]:
    """Asks for a node on a kept link: the status, and how long the body is."""
    link.request(method, "/api/0.6/node/1", headers={"Host": NAME})
    reply = link.getresponse()
    return reply.status, len(reply.read())


def requests_and_links(it: Front) -> str:
    """Requests behind each other, past the ends of the server's links and of nginx's."""
    statuses, link, links = [], it.link(), 1
    for _ in range(2500):
        statuses.append(ask_on(link)[0])
        if link.sock is None:
            link, links = it.link(), links + 1
    want("2,500 GETs", {200}, set(statuses))
    idle = [it.link() for _ in range(100)]
    want("links that have asked once", {200}, {ask_on(one)[0] for one in idle})
    start = time.monotonic()
    want("one more request", 200, it.ask("GET", "node/1")[0])
    took = time.monotonic() - start
    want("answered within a second", True, took < 1)
    for one in idle:
        one.close()
    return f"2,500 GETs on {links} links; beside 100 idle links a GET by curl takes {1000 * took:.0f} ms"


def upload(it: Front, count: int) -> None:
    """So many nodes, from 48.1 degrees north on, in a new changeset."""
    nodes = b",".join(b'{"type":"node","id":-%d,"lat7":%d,"lon7":115000000}' % (i, 481000000 + i) for i in range(1, count + 1))
    changeset = it.ask("PUT", "changeset/create")[1].decode()
    want("an upload", 200, it.ask("POST", f"changeset/{changeset}/upload", b'{"osmChange":[{"create":[%s]}]}' % nodes)[0])


def half_sent(stream: socket.socket) -> socket.socket:
    stream.sendall(b"POST /api/0.6/changeset/1/upload HTTP/1.1\r\nHost: x\r\nContent-Length: 1000\r\n\r\n{")
    return stream


def unread(it: Front) -> socket.socket:
    """A link whose large reply isn't read, with little room for it on the way."""
    raw = socket.socket()
    raw.setsockopt(socket.SOL_SOCKET, socket.SO_RCVBUF, 4096)
    raw.connect(("127.0.0.1", it.port))
    stream = it.trust.wrap_socket(raw, server_hostname=NAME)
    stream.sendall(b"GET /api/0.6/map?bbox=11.4,48,11.6,48.2 HTTP/1.1\r\nHost: x\r\n\r\n")
    return stream


def is_answered(port: int, wait: float = 1) -> bool:
    """Whether the server itself answers on a new link in that time."""
    with connect(port, wait) as stream:
        stream.sendall(request("GET", "node/1", closes=True))
        try:
            return int(Replies(stream).next().status) == 200
        except TimeoutError:
            return False


def slow_clients(it: Front) -> str:
    """Clients that send or read slowly hold no worker; straight at the server they do."""
    upload(it, NODES)
    slow = [half_sent(connect(it.server.port)) for _ in range(WORKERS)]
    want("a GET beside slow clients of the server is answered", False, is_answered(it.server.port))
    for link in slow:
        link.close()
    want("a GET behind them is answered", True, is_answered(it.server.port, 10))
    slow = [half_sent(it.link().sock) for _ in range(WORKERS)] + [unread(it) for _ in range(WORKERS)]
    time.sleep(1)
    want("a GET beside slow clients of nginx is answered", True, is_answered(it.server.port))
    want("a GET through nginx", 200, it.ask("GET", "node/1")[0])
    for link in slow:
        link.close()
    return f"{WORKERS} clients that send slowly and {WORKERS} that don't read hold none of {WORKERS} workers"


def small_replies(it: Front) -> str:
    """No small reply is held back."""
    link, times = it.link(), []
    for _ in range(500):
        start = time.monotonic()
        want("a GET", 200, ask_on(link)[0])
        times.append(time.monotonic() - start)
    times.sort()
    return f"a GET on a kept link takes {1000 * times[250]:.2f} ms, and {1000 * times[495]:.1f} ms at most of 99 in 100"


def wrk(url: str, links: int, seconds: int) -> str:
    text = run("wrk", "-t2", f"-c{links}", f"-d{seconds}", "--latency", url).decode()
    want("other statuses", None, re.search(r"Non-2xx.*|Socket errors.*", text) and text)
    found: Any = re.search(r"Requests/sec:\s*([\d.]+)", text)
    half, most = (re.search(rf"^\s+{part}%\s+(\S+)", text, re.M) for part in (50, 99))
    return f"{float(found[1]):,.0f} requests a second, half within {half and half[1]}, 99 in 100 within {most and most[1]}"


def figures(it: Front, seconds: int) -> None:
    upload(it, 200)
    straight, through = f"http://127.0.0.1:{it.server.port}/api/0.6", f"https://127.0.0.1:{it.port}/api/0.6"
    for what, path in (("a node", "node/1"), ("a map of 200 nodes", "map?bbox=11.4,48,11.6,48.2")):
        print(f"{what}, straight, 4 links: {wrk(f'{straight}/{path}', 4, seconds)}")
        for links in (4, 64):
            print(f"{what}, through nginx and TLS, {links} links: {wrk(f'{through}/{path}', links, seconds)}")


def tried(it: argparse.Namespace) -> None:
    with front(it.program, WORKERS, 1) as found:
        for part in (calls, limits, requests_and_links, slow_clients, small_replies):
            print(part(found), flush=True)
    if it.seconds:
        with front(it.program, 64, 8) as found:
            figures(found, it.seconds)


def main() -> int:
    parser = argparse.ArgumentParser(usage=(__doc__ or "").split("\n\n")[0].partition(": ")[2])
    parser.add_argument("--program", default=os.path.join(TOP, "crates", "osm", "out", "osm"))
    parser.add_argument("--seconds", type=int, default=0)
    return trial_status(partial(tried, parser.parse_args()))


if __name__ == "__main__":
    sys.exit(main())
