"""What `--metrics` shows: requests by call and status, seconds, links, room, lost answers, the server's number; of all processes together."""

from __future__ import annotations

import os
import re
import tempfile
import threading
import time
from socket import create_connection
from typing import Any

from behind import ALICE, USERS, Came, Gateway, ask, refuses_to_start, want
from dropping import Dropping
from large import BOX, map_of
from mirrors import Behind
from rows import Standing
from serving import Reply, Server, Wrong, free_port

LINE = re.compile(r'([a-z_]+)(?:\{([^{}\n]*)\})? ([0-9.e+-]+)')


def numbers(port: int) -> dict[str, float]:
    """Each row by its name and labels; every line has to be of the form, and each name told of before."""
    came = ask(port, "GET", "/metrics")
    want((came.status, came.fields["Content-Type"]), (200, "text/plain; version=0.0.4; charset=utf-8"), "the reply")
    found, typed = dict[str, float](), set[str]()
    for line in came.text.splitlines():
        if line.startswith("# TYPE "):
            typed.add(line.split(" ")[2])
        elif not line.startswith("# HELP "):
            it = LINE.fullmatch(line)
            if it is None or re.sub("_(bucket|sum|count)$", "", it[1]) not in typed and it[1] not in typed:
                raise Wrong(f"no line of the form: {line}")
            found[line.rpartition(" ")[0]] = float(it[3])
    return found


def requests(found: dict[str, float], call: str, status: int) -> float:
    return found.get(f'gateway_requests_total{{call="{call}",status="{status}"}}', 0)


def counted(program: str) -> None:
    port = free_port()
    with Server(program, 12, USERS) as server, Gateway(server.port, more=("--metrics", f"127.0.0.1:{port}")) as gateway:
        for _ in range(3):
            gateway.changeset()
        want([gateway.api("GET", f"node/{number}").status for number in (1, 2)], [404, 404], "nodes that aren't there")
        want(gateway.ask("GET", "/nowhere").status, 404, "no path")
        found = numbers(port)
        wanted = ((("changesets.create", 200), 3), (("elements.read", 404), 2), (("other", 404), 1), (("elements.read_map", 200), 0))
        want([requests(found, *key) for key, _ in wanted], [count for _, count in wanted], "requests")
        want(found['gateway_request_seconds_count{call="changesets.create"}'], 3, "requests that took some time")
        want(found['gateway_request_seconds_bucket{call="changesets.create",le="+Inf"}'], 3, "of these all")
        want((found["map_server_up"], found["map_server_changes"], found["gateway_answers_lost_total"]), (1, 3, 0), "the server")
        want((found['gateway_links{server="map"}'], found['gateway_links_in_use{server="map"}'], found["gateway_room_bytes"]), (8, 0, 1 << 30), "what there is")
        want(gateway.ask("GET", "/metrics").status, 404, "the counts at the address for everybody")
        want(ask(port, "GET", "/api/0.6/capabilities").status, 404, "a call at the address of the counts")


def lost(program: str) -> None:
    port = free_port()
    with Server(program, 12, USERS) as server, Dropping(server.port, lambda number, _: "reply" if number == 1 else "pass") as dropping:
        with Gateway(dropping.port, more=("--metrics", f"127.0.0.1:{port}")) as gateway:
            want(gateway.changeset(), 1, "a changeset whose answer is lost")
            want(numbers(port)["gateway_answers_lost_total"], 1, "answers that were lost")


def in_use() -> None:
    """A reply that its reader doesn't take is held, and a server that doesn't answer has its link."""
    port = free_port()
    with Standing() as standing:
        standing.paths = {"/api/0.6/map": Reply(200, map_of(30_000), False)}
        with Gateway(standing.port, more=("--metrics", f"127.0.0.1:{port}")) as gateway:
            with create_connection(("127.0.0.1", gateway.port)) as slow:
                slow.sendall(f"GET /api/0.6/map?bbox={BOX} HTTP/1.1\r\nHost: localhost\r\n\r\n".encode())
                until = time.monotonic() + 60
                while numbers(port)["gateway_room_in_use_bytes"] < 1 << 20:
                    if time.monotonic() > until:
                        raise Wrong("the room in use isn't told")
                    time.sleep(0.1)
            want(numbers(port)["map_server_up"], 0, "a server that doesn't tell its number")
    # Somebody has to be behind it: it ends a link at once where it can't pass it on.
    with Standing() as standing, Behind(standing.port, None) as frozen:
        frozen.is_frozen = True
        with Gateway(frozen.port, more=("--metrics", f"127.0.0.1:{port}", "--links", "2")) as gateway:
            asking = [threading.Thread(target=waiting, args=(gateway,), daemon=True) for _ in range(3)]
            for it in asking:
                it.start()
            until = time.monotonic() + 60
            while links(port) != (2, 2, 1):
                if time.monotonic() > until:
                    raise Wrong(f"links, those in use, and who waits: {links(port)}")
                time.sleep(0.05)
            frozen.__exit__()
            for it in asking:
                it.join()


def waiting(gateway: Gateway) -> Came | None:
    try:
        return gateway.api("GET", "node/1")
    except OSError:
        return None


def links(port: int) -> tuple[float, ...]:
    found = numbers(port)
    return tuple(found[f'gateway_links{name}{{server="map"}}'] for name in ("", "_in_use", "_waiting"))


def several(program: str) -> None:
    """Of three processes whichever is asked tells the same; and of mirrors too."""
    port = free_port()
    with Server(program, 24, USERS) as server, Behind(server.port, 0.01) as mirror, tempfile.TemporaryDirectory() as folder:
        words: tuple[Any, ...] = ("--processes", "3", "--data", os.path.join(folder, "data"), "--mirrors", f"http://127.0.0.1:{mirror.port}")
        with Gateway(server.port, more=(*words, "--metrics", f"127.0.0.1:{port}")) as gateway:
            for _ in range(20):
                gateway.changeset()
            mirror.level()
            time.sleep(3)
            for _ in range(20):
                gateway.well("GET", "changeset/20", who=ALICE)
            for _ in range(10):
                found = numbers(port)
                want((requests(found, "changesets.create", 200), requests(found, "changesets.read", 200)), (20, 20), "requests of all processes")
            reads = found['gateway_reads_total{server="map"}'], found[f'gateway_reads_total{{server="http://127.0.0.1:{mirror.port}"}}']
            want((sum(reads), reads[1] > 0), (20, True), "reads of the map")
            url = f'mirror="http://127.0.0.1:{mirror.port}"'
            want((found[f"map_mirror_up{{{url}}}"], found[f"map_mirror_changes{{{url}}}"]), (1, 20), "the mirror")


def words() -> None:
    refuses_to_start(Gateway(1, more=("--metrics", "nowhere")), "isn't HOST:PORT")


def run(program: str) -> str:
    words()
    counted(program)
    lost(program)
    in_use()
    several(program)
    return "requests, seconds, links, room, lost answers and the server's number, of one process and of three"
