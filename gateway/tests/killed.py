"""The server is killed under the gateway and started again; and the gateway is ended in order, with a reply on its way."""

from __future__ import annotations

import os
import signal
import socket
import subprocess
import tempfile
import threading
import time
from http.client import HTTPException

from behind import ALICE, RUN, USERS, Came, Gateway, has, refuses_to_start, want
from large import BOX, map_of
from rows import Standing
from serving import Reply, Server, Wrong, family

NODES = 10_000
"""Of a map that is written well within the gateway's twenty seconds for what is on its way, on a busy machine too."""


def killed(server: Server) -> None:
    os.kill(server.pid, signal.SIGKILL)
    server.process.wait()


def lines(gateway: Gateway, text: str) -> int:
    return sum(text in line for line in gateway.lines())


def again(program: str) -> None:
    """Refused with 503 while the server is away, and told in a line, once; and served when it is back."""
    server = Server(program, 8, USERS)
    with Gateway(server.port) as gateway:
        links = [socket.create_connection(("127.0.0.1", gateway.port)) for _ in range(3)]
        gateway.changeset()
        killed(server)
        for method, path in (("GET", "node/1"), ("PUT", "changeset/create"), ("GET", "changeset/1"), ("GET", "map?bbox=0,0,0.1,0.1")):
            came = gateway.api(method, path, "" if method == "PUT" else None, ALICE)
            want((came.status, came.fields["Error"], came.fields["Retry-After"]), (503, came.text, "5"), f"{method} {path} without a server")
            has(came.text, "can't be reached at the moment, nothing was done", path)
        want((gateway.api("GET", "capabilities").status, lines(gateway, "can't be reached")), (200, 1), "the gateway itself, and what it told")
        has(gateway.well("GET", "capabilities"), 'api="offline"', "capabilities without a server")
        server = Server(program, 8, USERS, port=server.port)
        with server:
            want((gateway.changeset(), lines(gateway, "answers again")), (1, 1), "the first changeset of a new server, and what was told")
            # The links of before are not the new server's: each is found to be gone before something is sent on it.
            killed(server)
            server = Server(program, 8, USERS, port=server.port)
            want([gateway.changeset() for _ in range(3)], [1, 2, 3], "changes behind a kill that nobody saw")
            killed(server)
        for link in links:
            link.close()


def read_map(gateway: Gateway, got: list[Came | Exception]) -> None:
    """What came of it, or why nothing whole did."""
    try:
        got.append(gateway.api("GET", f"map?bbox={BOX}"))
    except (OSError, HTTPException) as why:
        got.append(why)


def stopping() -> float:
    """A signal while a long reply is on its way: it comes whole, no new link is taken, and the status is 0."""
    with Standing() as standing:
        standing.paths = {"/api/0.6/map": Reply(200, map_of(NODES), False)}
        for number in (signal.SIGTERM, signal.SIGINT):
            with Gateway(standing.port) as gateway:
                got: list[Came | Exception] = []
                reader = threading.Thread(target=read_map, args=(gateway, got))
                idle = socket.create_connection(("127.0.0.1", gateway.port))
                reader.start()
                while not standing.got and reader.is_alive():
                    time.sleep(0.01)
                start = time.monotonic()
                gateway.process.send_signal(number)
                want(gateway.process.wait(30), 0, f"the status behind {number.name}")
                took = time.monotonic() - start
                reader.join()
                came = got[0]
                if isinstance(came, Exception):
                    raise Wrong(f"a reply that {number.name} met isn't whole {took:.1f} s later: {came!r:.200}")
                want((came.status, came.text.count("<node ")), (200, NODES), f"a reply that {number.name} met")
                want((gateway.lines()[-2:], idle.recv(10)), (["gateway: ending", "gateway: ended"], b""), "what was told at the end")
                idle.close()
                standing.got.clear()
    return took


def several() -> None:
    """Of several processes one is killed: the others end in order, and the status says so. Nobody else gets their address meanwhile."""
    with Standing() as standing, tempfile.TemporaryDirectory() as folder:
        words = ("--processes", "3", "--data", os.path.join(folder, "data"))
        with Gateway(standing.port, more=words) as gateway:
            port, users = gateway.port, os.path.join(gateway.folder.name, "users.txt")
            again = (RUN, "--server", f"http://127.0.0.1:{standing.port}", "--users", users, "--listen", f"127.0.0.1:{port}", *words)
            done = subprocess.run(again, capture_output=True, text=True, timeout=60, check=False)
            want((done.returncode, "can't listen" in done.stderr), (6, True), "another gateway at the same address")
        gateway = Gateway(standing.port, more=words)
        with gateway:
            os.kill(family(gateway.process.pid)[1], signal.SIGKILL)
            want(gateway.process.wait(60) != 0, True, "the status")
            want((lines(gateway, "ended by itself with status -9"), lines(gateway, "gateway: ended")), (1, 2), "what is told")
            gateway.process.returncode = 0  # as it has to be at the end of a `with`


def refusals(program: str) -> None:
    """Words and texts that can't be: a line, and a status that isn't 0."""
    with Gateway(1, users="1 a user A\n") as there:
        for users, more, text in (("1 a b c\n", (), "line 1"), ("1 a user A\n", ("--links", "0"), "--links"), ("1 a user A\n", (), "can't listen")):
            refuses_to_start(Gateway(1, users=users, more=more, port=there.port if text == "can't listen" else 0), text)


def run(program: str) -> str:
    again(program)
    took = stopping()
    several()
    refusals(program)
    return f"503 with a text while the server is gone, a line when it goes and when it is back; ended within {took:.1f} s with a reply on its way"
