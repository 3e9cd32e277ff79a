"""Mirrors that answer reads: whoever writes finds it at once, what an address sees never goes back, and a mirror that isn't level answers nobody.

The mirrors are stand-ins in front of the server, each a drawn time behind it; and the mirror's own program too, where it stands beside the server's.
"""

from __future__ import annotations

import contextlib
import json
import os
import random
import re
import signal
import socketserver
import tempfile
import threading
import time
from collections.abc import Iterator
from concurrent.futures import ThreadPoolExecutor
from dataclasses import dataclass, field
from typing import Any, NamedTuple

from behind import USERS, Came, Gateway, basic, refuses_to_start, want
from dropping import message
from serving import Link, Lost, Server, Wrong, connect

CREATIONS, FEWER, CLIENTS, ADDRESSES, SEED = 2000, 200, 8, 40, 20261201
LONGEST_LAG = 0.12
BOB = "bobtoken"
Due = tuple[float, int, str]


def reply(status: int, row: object) -> bytes:
    body = json.dumps(row).encode()
    return f"HTTP/1.1 {status} X\r\nContent-Type: application/json\r\nContent-Length: {len(body)}\r\n\r\n".encode() + body


@dataclass
class Behind:
    """A stand-in for a mirror of a server whose changes are creations of changesets alone, so changeset N is there from its number N on.
    `lag` is the longest time that it is behind; without one it is a proxy in front of the server, that counts."""

    server: int
    lag: float | None = LONGEST_LAG
    port: int = 0
    reads: int = 0
    states: list[Due] = field(default_factory=lambda: [(0.0, 0, "1970-01-01T00:00:00Z")])
    is_frozen: bool = False
    other: str = ""
    """A stamp of another journal, which it tells in the place of its own."""

    def __enter__(self) -> Behind:
        behind = self

        class Between(socketserver.StreamRequestHandler):
            disable_nagle_algorithm = True

            def handle(self) -> None:
                behind.streams.append(self.connection)
                with contextlib.suppress(OSError), connect(behind.server) as there:
                    while (asked := message(self.rfile)) is not None and not behind.ended.is_set():
                        while behind.is_frozen:
                            time.sleep(0.02)
                        self.wfile.write(behind.answer(asked, there))

        class Serving(socketserver.ThreadingTCPServer):
            daemon_threads, allow_reuse_address, request_queue_size = True, True, 64

        self.ended, self.streams, self.draw = threading.Event(), list[Any](), random.Random(SEED)
        self.serving = Serving(("127.0.0.1", self.port), Between)
        self.port = self.serving.server_address[1]
        threading.Thread(target=self.serving.serve_forever, daemon=True).start()
        self.follower = threading.Thread(target=self.follow, daemon=True)
        if self.lag is not None:
            self.follower.start()
        return self

    def __exit__(self, *_: object) -> None:
        self.ended.set()
        self.serving.shutdown()
        self.serving.server_close()
        for stream in self.streams:
            with contextlib.suppress(OSError):
                stream.shutdown(2)
        if self.lag is not None:
            self.follower.join()

    def follow(self) -> None:
        link = Link(self.server)
        while not self.ended.is_set():
            row = link.ask("GET", "replication/state").read()
            if row["sequenceNumber"] > self.states[-1][1]:
                due = max(self.states[-1][0], time.monotonic() + self.draw.uniform(0, self.lag or 0))
                self.states.append((due, row["sequenceNumber"], row["timestamp"]))
            time.sleep(0.01)
        link.close()

    def state(self) -> Due:
        now = time.monotonic()
        return next(it for it in reversed(self.states) if it[0] <= now)

    def answer(self, asked: tuple[bytes, bytes], there: Any) -> bytes:
        line, number = asked[0].split(b"\r\n", 1)[0].decode(), self.state()[1]
        is_read = line.startswith("GET ") and "/replication/" not in line
        self.reads += is_read
        found = re.match(r"GET /api/0\.6/changeset/([0-9]+) ", line)
        if self.lag is not None and "/replication/state" in line:
            return reply(200, {"sequenceNumber": number, "timestamp": self.other or self.state()[2]})
        if self.lag is not None and found and int(found[1]) > number:
            return reply(404, {"error": "no_changeset", "id": int(found[1])})
        there.sendall(asked[0] + asked[1])
        with there.makefile("rb") as file:
            head, body = message(file) or (b"", b"")
        if self.lag is not None and "/changesets" in line:
            rows = [it for it in json.loads(body)["changesets"] if it["id"] <= number]
            return reply(200, {"changesets": rows, "version": "0.6"})
        return head + body

    def level(self) -> None:
        """Waits until it has what the server has."""
        wanted, until = Link(self.server, kept=1).ask("GET", "replication/state").read()["sequenceNumber"], time.monotonic() + 20
        while self.state()[1] < wanted and time.monotonic() < until:
            time.sleep(0.01)


class Carried:
    """The mirror's own program, and a carrier that brings it the server's pieces, each a drawn time late."""

    def __init__(self, program: str, server: int) -> None:
        self.mirror, self.server = Server(program, 12, USERS, command=()), server
        self.port, self.ended = self.mirror.port, threading.Event()

    def __enter__(self) -> Carried:
        self.carrier = threading.Thread(target=self.carry, daemon=True)
        self.carrier.start()
        return self

    def __exit__(self, *_: object) -> None:
        self.ended.set()
        self.carrier.join()
        os.kill(self.mirror.pid, signal.SIGTERM)
        self.mirror.process.wait()

    def carry(self) -> None:
        """Until the end, or that of the server."""
        server, mirror, draw, number = Link(self.server, BOB), Link(self.port, BOB), random.Random(SEED), 1
        with contextlib.suppress(Lost):
            while not self.ended.is_set():
                piece = server.ask("GET", f"replication/{number}")
                if piece.status != 200:
                    time.sleep(0.01)
                    continue
                time.sleep(draw.uniform(0, LONGEST_LAG) if draw.random() < 0.1 else 0)
                want(mirror.ask("POST", "replication", piece.body).status, 200, "a piece at the mirror")
                number += 1
        server.close()
        mirror.close()


# ---- clients


@dataclass
class Client:
    """Creates changesets from many addresses, looks for each at once, and for the newest ones."""

    gateway: Gateway
    draw: random.Random
    addresses: list[str]
    newest: dict[str, int] = field(default_factory=dict)

    def api(self, method: str, path: str, address: str, who: str = "") -> Came:
        return self.gateway.api(method, path, "<osm><changeset/></osm>" if method == "PUT" else None, who, X_Forwarded_For=address)

    def read(self, path: str, address: str, who: str = "") -> str:
        came = self.api("GET", path, address, who)
        want(came.status, 200, f"{path} from {address}: {came.text[:200]}")
        return came.text

    def look(self, address: str) -> None:
        """The number of the newest changeset that this address sees never goes down."""
        found = max(map(int, re.findall(r'<changeset id="([0-9]+)"', self.read("changesets?limit=1", address))), default=0)
        if found < self.newest.get(address, 0):
            raise Wrong(f"{address} saw changeset {self.newest[address]}, and then {found} as the newest")
        self.newest[address] = found

    def run(self, creations: int) -> None:
        alice = basic("alice", "alicetoken")
        for _ in range(creations):
            address = self.draw.choice(self.addresses)
            came = self.api("PUT", "changeset/create", address, alice)
            want(came.status, 200, came.text[:200])
            # Without a name from the same address, or by the name from another one.
            if self.draw.random() < 0.7:
                self.read(f"changeset/{came.text}", address)
            else:
                self.read(f"changeset/{came.text}", self.draw.choice(self.addresses), alice)
            if self.draw.random() < 0.3:
                self.look(self.draw.choice(self.addresses))


def play(gateway: Gateway, creations: int) -> None:
    names = [f"192.0.2.{number}" for number in range(ADDRESSES)]
    clients = [Client(gateway, random.Random(SEED + number), names[number::CLIENTS]) for number in range(CLIENTS)]
    with ThreadPoolExecutor(CLIENTS) as pool:
        for done in [pool.submit(client.run, creations // CLIENTS) for client in clients]:
            done.result()


@contextlib.contextmanager
def before(server: int, ports: list[int], more: tuple[str, ...] = ()) -> Iterator[Gateway]:
    urls = ",".join(f"http://127.0.0.1:{port}" for port in ports)
    with Gateway(server, more=("--mirrors", urls, "--quiet", *more)) as gateway:
        yield gateway


def told(gateway: Gateway, text: str, count: int = 1) -> None:
    until = time.monotonic() + 20
    while (found := sum(text in line for line in gateway.lines())) < count:
        if time.monotonic() > until:
            raise Wrong(f"{text!r} was told {found} times and not {count}: {gateway.lines()[-10:]}")
        time.sleep(0.02)


# ---- what is tried


def own_writes(program: str, creations: int) -> str:
    """Over two stand-ins, with everything counted."""
    with Server(program, 24, USERS) as server, Behind(server.port, None) as counted, Behind(server.port) as one, Behind(server.port) as two:
        with before(counted.port, [one.port, two.port]) as gateway:
            play(gateway, creations)
            shares = one.reads, two.reads, counted.reads - creations
            if min(shares[:2]) < creations // 50:
                raise Wrong(f"reads at the mirrors and at the server: {shares}")
            one.level()
            two.level()
            time.sleep(0.5)
            quiet, reads = counted.reads, one.reads + two.reads
            for number in range(200):
                want(gateway.api("GET", "changeset/1", X_Forwarded_For=f"198.51.100.{number}").status, 200, "a read")
            want((counted.reads - quiet, one.reads + two.reads - reads), (0, 200), "reads at the server and at mirrors, behind a pause")
    return f"{creations} changesets found at once over two stand-ins, {shares[0]} and {shares[1]} reads there and {shares[2]} at the server"


def several(program: str, mirror: str | None) -> None:
    """What one process was told counts at the others."""
    with Server(program, 24, USERS) as server, two(mirror, server.port) as ports, tempfile.TemporaryDirectory() as folder:
        with before(server.port, ports, ("--processes", "3", "--data", os.path.join(folder, "data"))) as gateway:
            play(gateway, FEWER)


class Scene(NamedTuple):
    """A server behind a proxy, a mirror that is level with it, the gateway before both, and one who reads and writes there."""

    server: Server
    counted: Behind
    mirror: Behind
    gateway: Gateway
    client: Client


@contextlib.contextmanager
def one_mirror(program: str, creations: int) -> Iterator[Scene]:
    with Server(program, 24, USERS) as server, Behind(server.port, None) as counted, Behind(server.port, 0.01) as mirror:
        with before(counted.port, [mirror.port]) as gateway:
            client = Client(gateway, random.Random(SEED), ["192.0.2.1"])
            client.run(creations)
            mirror.level()
            time.sleep(0.3)  # until the gateway has asked the mirror for its number again
            yield Scene(server, counted, mirror, gateway, client)


def absent(program: str) -> None:
    """A mirror that goes, comes back empty, freezes, or has another journal: nobody sees less than before."""
    with one_mirror(program, 20) as (server, counted, mirror, gateway, client):
        mirror.__exit__()
        client.look("192.0.2.1")
        told(gateway, "is left out: it gave no answer")
        with Behind(server.port, 3600.0, mirror.port) as empty:
            empty.states = empty.states[:1]
            for _ in range(100):
                client.look("192.0.2.1")
                time.sleep(0.06)
            want(empty.reads, 0, "reads at an empty mirror")
            told(gateway, "isn't level")
        with Behind(server.port, 0.01, mirror.port) as full:
            told(gateway, "answers reads")
            returned(full, client)
            frozen(gateway, full, client)
            full.other = "2001-01-01T00:00:00Z"
            told(gateway, "has another journal")
            reads = full.reads
            client.look("192.0.2.1")
            want(full.reads, reads, "reads at a mirror of another journal")
        counted.__exit__()
        want(client.api("GET", "changeset/1", "192.0.2.1").status, 503, "a read with nobody there")


def returned(mirror: Behind, client: Client) -> None:
    """Also who reads without a pause comes back to it."""
    reads, until = mirror.reads, time.monotonic() + 10
    while mirror.reads == reads and time.monotonic() < until:
        client.look("192.0.2.1")
    if mirror.reads == reads:
        raise Wrong("a reader without a pause didn't come back to a mirror that is level")


def frozen(gateway: Gateway, mirror: Behind, client: Client) -> None:
    gone, back = (sum(text in line for line in gateway.lines()) for text in ("it gave no answer", "answers reads"))
    mirror.is_frozen = True
    told(gateway, "it gave no answer", gone + 1)
    start = time.monotonic()
    client.look("192.0.2.1")
    if (took := time.monotonic() - start) > 10:
        raise Wrong(f"a read waits {took:.1f} s for a mirror that is left out")
    mirror.is_frozen = False
    told(gateway, "answers reads", back + 1)


def without_server(program: str) -> None:
    """Mirrors answer on where the server is gone."""
    with one_mirror(program, 5) as scene:
        scene.counted.__exit__()
        for _ in range(12):
            scene.client.look("192.0.2.1")
            time.sleep(1)
        came = scene.client.api("PUT", "changeset/create", "192.0.2.1", basic("alice", "alicetoken"))
        want(came.status, 503, "a change without a server")


def words(server: int) -> None:
    for urls, text in (("http://127.0.0.1:1,http://127.0.0.1:1", "each address once"), ("ftp://a", "isn't http://HOST:PORT")):
        refuses_to_start(Gateway(server, more=("--mirrors", urls)), text)


def mirror_beside(program: str) -> str | None:
    """The mirror's own program, in the folder of the server's or where both are built."""
    folder = os.path.dirname(program)
    places = os.path.join(folder, "osm_mirror"), os.path.normpath(os.path.join(folder, "..", "..", "osm_mirror", "out", "osm_mirror"))
    return next((place for place in places if os.access(place, os.X_OK)), None)


@contextlib.contextmanager
def two(program: str | None, server: int) -> Iterator[list[int]]:
    """The ports of two mirrors, by their own program where it is there."""
    with contextlib.ExitStack() as stack:
        yield [stack.enter_context(Behind(server)).port if program is None else stack.enter_context(Carried(program, server)).port for _ in range(2)]


def own_program(program: str, mirror: str) -> str:
    """Two mirrors of their own program."""
    with Server(program, 24, USERS) as server, two(mirror, server.port) as ports:
        with before(server.port, ports) as gateway:
            play(gateway, CREATIONS)
    return f"{CREATIONS} over two mirrors of their own program"


def run(program: str) -> str:
    words(1)
    mirror = mirror_beside(program)
    done = own_writes(program, CREATIONS if mirror is None else FEWER)
    several(program, mirror)
    absent(program)
    without_server(program)
    return f"{done}; {own_program(program, mirror) if mirror is not None else 'the program of the mirror is not there'}"
