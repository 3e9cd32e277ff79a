#!/usr/bin/env python3
"""Hostile links: examples/hostile.py [--program ./osm] [--workers 8] [--drip 60] [--patience 400] [--links 2000]
    [--noise 10000] [--bodies 64] [--megabytes 32]

Starts `PROGRAM serve` on a free port and does to it what no client should: a request that comes a byte a
second, replies that nobody reads, links that end in the middle of a head, a body or a reply, thousands of
links at once, random bytes, large bodies on many links, and as many silent links as there are workers. After
each the workers still answer, all at the same time, no descriptor is left open (after `patience` seconds at
most), and the map is as it was, but for the uploads that were accepted. In the end the map is read back whole:
every version stands in one changeset and in its element's history, in order, and what is visible names nothing
that isn't. Status 0 where all of it holds, 1 where something doesn't.
"""

from __future__ import annotations

import argparse
import errno
import json
import random
import resource
import socket
import struct
import sys
import threading
import time
from collections.abc import Callable
from concurrent.futures import ThreadPoolExecutor
from multiprocessing.pool import ThreadPool

import many_clients
import serving
from serving import Link, Replies, Server, connect, request

USERS = "1 alicetoken user alice\n"
TOKEN = "alicetoken"
NODE = {"type": "node", "id": -1, "lat7": 481400000, "lon7": 115400000}
UPLOAD = json.dumps({"osmChange": [{"create": [NODE]}]}, separators=(",", ":")).encode()
BOX = "map?bbox=11.5,48.1,11.6,48.2"
NODES = 200


def hang_up(stream: socket.socket, resets: bool) -> None:
    """Ends a link in order (FIN), or at once (RST)."""
    if resets:
        stream.setsockopt(socket.SOL_SOCKET, socket.SO_LINGER, struct.pack("ii", 1, 0))
    stream.close()


class Siege:
    def __init__(self, server: Server, it: argparse.Namespace) -> None:
        self.server, self.it, self.port = server, it, server.port
        self.nodes = NODES
        self.wrong = 0
        link = Link(self.port, TOKEN)
        link.ask("PUT", "changeset/create")
        link.ask("POST", "changeset/1/upload", {"osmChange": [{"create": [{**NODE, "id": -i - 1} for i in range(NODES)]}]})
        link.close()
        self.workers_answer()
        self.open = self.at_rest()
        self.map = self.read_map()

    # ---- what has to hold after each

    def read_map(self) -> tuple[bytes, ...]:
        """Each reply that tells of the map; the uploads of this program add nodes at one place."""
        link = Link(self.port, kept=4)
        paths = (BOX, "changeset/1", "changeset/1/download", f"nodes?nodes={','.join(map(str, range(1, self.nodes + 1)))}")
        return tuple(link.ask("GET", path).body for path in paths)

    def workers_answer(self) -> float:
        """As many links as workers, all open at the same time, each with its reply. How long it took."""
        began = time.monotonic()
        streams = [connect(self.port, self.it.patience) for _ in range(self.server.workers)]
        for stream in streams:
            stream.sendall(request("GET", "node/1"))
        statuses = {Replies(stream).next().status for stream in streams}
        for stream in streams:
            stream.close()
        return time.monotonic() - began if statuses == {200} else self.say(f"a worker answers {statuses}")

    def at_rest(self) -> int:
        """The descriptors that are open while no link is: the fewest of a second."""
        counts = []
        for _ in range(20):
            time.sleep(0.05)
            counts.append(self.server.descriptors())
        return min(counts)

    def say(self, what: str) -> float:
        self.wrong += 1
        print("wrong:", what)
        return 0

    def settle(self) -> float:
        """Waits until no descriptor is open that wasn't before. How long it took."""
        began = time.monotonic()
        while self.server.descriptors() > self.open and time.monotonic() - began < self.it.patience:
            time.sleep(0.02)
        left = self.server.descriptors() - self.open
        return time.monotonic() - began if left <= 0 else self.say(f"{left} descriptors are left open")

    def stands(self, name: str, told: str) -> None:
        try:
            answered, settled = self.workers_answer(), self.settle()
        except (OSError, serving.Lost) as why:
            self.say(f"no answer after {name}: {why!r}")
            return
        now = self.read_map()
        if now != self.map:
            self.say(f"the map is another one after {name}")
            self.map = now
        print(f"{name}: {told}; then all workers answer within {answered:.2f} s, descriptors are back after {settled:.2f} s", flush=True)

    def accepted(self, count: int) -> None:
        """So many more nodes, each in an upload of its own."""
        self.nodes += count
        self.map = self.read_map()
        rows = json.loads(self.map[1])["changeset"]["changes_count"], len(json.loads(self.map[0])["elements"])
        if rows != (self.nodes, self.nodes):
            self.say(f"{rows} changes and nodes are there, and {self.nodes} were accepted")

    # ---- what is done

    def drip(self) -> str:
        """One request, a byte a second, long enough for the time; it is answered as any other."""
        head = b"GET /api/0.6/node/1 HTTP/1.1\r\nX: "
        data = head + b"x" * (self.it.drip - len(head) - 4) + b"\r\n\r\n"
        stream = connect(self.port)
        for byte in data:
            stream.sendall(bytes([byte]))
            time.sleep(1)
        status = Replies(stream).next().status
        stream.close()
        if status != 200:
            self.say(f"a byte a second is answered {status}")
        return f"{len(data)} bytes, one a second, status {status}"

    def deaf(self) -> str:
        """1,000 requests at once whose replies nobody reads: the worker lets go. That may take as long as a
        server lets replies take in all, since the kernel's buffers still grow when the peer takes nothing."""
        stream = socket.socket()
        stream.setsockopt(socket.SOL_SOCKET, socket.SO_RCVBUF, 4096)
        stream.connect(("127.0.0.1", self.port))
        sent = threading.Thread(target=self.send_and_wait, args=(stream, request("GET", BOX) * 1000), daemon=True)
        sent.start()
        time.sleep(1)
        began = time.monotonic()
        while self.server.descriptors() > self.open and time.monotonic() - began < self.it.patience:
            time.sleep(0.1)
        if self.server.descriptors() > self.open:
            self.say(f"a link whose replies nobody reads is held for more than {self.it.patience} s")
        took = time.monotonic() - began + 1
        hang_up(stream, True)
        sent.join()
        return f"1,000 requests, the link was let go after {took:.1f} s"

    def send_and_wait(self, stream: socket.socket, data: bytes) -> None:
        try:
            stream.sendall(data)
        except OSError:
            pass

    def cut(self) -> str:
        """Links that end in the middle of a head, of a body, and of a reply, in both ways."""
        upload = request("POST", "changeset/1/upload", TOKEN, UPLOAD)
        cuts = {"head": upload[:40], "body": upload[:-10], "reply": request("GET", BOX) * 20}
        for data in cuts.values():
            for i in range(100):
                stream = connect(self.port)
                stream.sendall(data)
                if data is cuts["reply"]:
                    stream.recv(100)
                hang_up(stream, i % 2 == 1)
        return "100 links each cut in a head, a body and a reply, half of them reset"

    def flood(self) -> str:
        """All links at once, opened and closed without a word."""
        streams, refused = [], 0
        for _ in range(self.it.links):
            stream = socket.socket()
            stream.setblocking(False)
            refused += stream.connect_ex(("127.0.0.1", self.port)) not in (0, errno.EINPROGRESS)
            streams.append(stream)
        for i, stream in enumerate(streams):
            hang_up(stream, i % 2 == 1)
        return f"{len(streams)} links opened and closed at once, {refused} not begun"

    def noise(self) -> str:
        """Random bytes, half of them requests in which bytes were changed; no token among them is a user's."""
        draw = random.Random(1)
        texts = (request("GET", BOX), request("POST", "changeset/1/upload", "x" * 30, UPLOAD), request("PUT", "node/1", "x" * 30, NODE))
        statuses: dict[int, int] = {}
        for i in range(self.it.noise):
            data = bytearray(draw.choice(texts) if i % 2 else draw.randbytes(draw.randint(1, 2000)))
            for _ in range(draw.randint(1, 5)):
                data[draw.randrange(len(data))] = draw.randrange(256)
            status = self.answer_of(bytes(data))
            statuses[status] = statuses.get(status, 0) + 1
        told = ", ".join(f"{count} {status or 'without a reply'}" for status, count in sorted(statuses.items()))
        return f"{self.it.noise} byte strings, {told}"

    def answer_of(self, data: bytes) -> int:
        """The first status that comes, 0 where none does."""
        with connect(self.port) as stream:
            stream.sendall(data)
            stream.shutdown(socket.SHUT_WR)
            first = b""
            while len(first) < 12 and (part := stream.recv(1 << 16)):
                first += part
        return int(first[9:12]) if first.startswith(b"HTTP/1.1 ") else 0

    def bodies(self) -> str:
        """An upload of so many megabytes on each of many links at once: mostly white space, and accepted."""
        size = self.it.megabytes << 20
        data = request("POST", "changeset/1/upload", TOKEN, UPLOAD + b" " * (size - len(UPLOAD)), True)

        def send(_: int) -> int:
            with connect(self.port, 600) as stream:
                stream.sendall(data)
                return Replies(stream).next().status

        with ThreadPoolExecutor(self.it.bodies) as pool:
            statuses = list(pool.map(send, range(self.it.bodies)))
        if set(statuses) != {200}:
            self.say(f"large bodies are answered {sorted(set(statuses))}")
        self.accepted(statuses.count(200))
        held = f"at most {self.server.megabytes('VmHWM'):.0f} MB held"
        return f"{len(data):,} bytes on each of {self.it.bodies} links, {statuses.count(200)} accepted, {held}"

    def silent(self) -> str:
        """A link for each worker that says nothing, or half a head and then nothing. They stay open."""
        self.silence = [connect(self.port) for _ in range(self.server.workers)]
        for stream in self.silence[::2]:
            stream.sendall(request("GET", BOX)[:20])
        return f"{len(self.silence)} links that say nothing, or half a head"

    def legal(self) -> str:
        """All changesets, downloads and histories: how many versions there are."""
        with ThreadPool(4) as pool:
            found = many_clients.Map(pool, self.port, 4)
        for fault in many_clients.check_histories(found):
            self.say(fault)
        rows = [(row["id"], row["changes_count"], len(found.downloads[row["id"]])) for row in found.rows]
        if any(count != made for _, count, made in rows) or len(found.versions) != self.nodes:
            self.say(f"changesets with their counts and versions: {rows}, and {self.nodes} nodes were accepted")
        return f"{len(found.versions)} versions in {len(rows)} changesets"

    def all(self) -> int:
        for name in ("cut", "flood", "noise", "bodies", "deaf", "drip", "silent", "legal"):
            began = time.monotonic()
            what: Callable[[], str] = getattr(self, name)
            try:
                told = what()
            except (OSError, serving.Lost) as why:
                self.say(f"{name}: {why!r}")
                told = "failed"
            self.stands(name, f"{told}, in {time.monotonic() - began:.1f} s")
        print(f"{self.wrong} wrong; {self.server.megabytes():.0f} MB held at the end, at most {self.server.megabytes('VmHWM'):.0f} MB")
        return 1 if self.wrong else 0


def main() -> int:
    parser = argparse.ArgumentParser(usage=(__doc__ or "").split("\n\n")[0].partition(": ")[2])
    parser.add_argument("--program", default=serving.OSM)
    numbers = (("workers", 8), ("drip", 60), ("patience", 400), ("links", 2000), ("noise", 10000), ("bodies", 64), ("megabytes", 32))
    for name, usual in numbers:
        parser.add_argument(f"--{name}", type=int, default=usual)
    it = parser.parse_args()
    most = resource.getrlimit(resource.RLIMIT_NOFILE)[1]
    with Server(it.program, it.workers, USERS) as server:
        resource.setrlimit(resource.RLIMIT_NOFILE, (most, most))
        return Siege(server, it).all()


if __name__ == "__main__":
    sys.exit(main())
