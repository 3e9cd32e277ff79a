"""Changes that are answered only once mirrors have them: what was answered outlives the server.

The mirrors are stand-ins a drawn time behind the server (mirrors.py), and at last the mirror's own program, where it stands beside the server's.
"""

from __future__ import annotations

import contextlib
import os
import random
import shutil
import signal
import tempfile
import threading
import time
from collections.abc import Iterator
from concurrent.futures import ThreadPoolExecutor

from behind import ALICE, USERS, Came, Gateway, ask, has, refuses_to_start, want
from mirrors import SEED, Behind, before, mirror_beside, two
from serving import Link, Server, Wrong, free_port

CREATIONS, CLIENTS = 160, 8
NODES = 2_000
KILLED_AFTER = 0.5, 1.5
CHANGESET = "<osm><changeset/></osm>"


def had(mirror: Behind, number: int, moment: float) -> bool:
    """Whether it had that change by then."""
    return any(due <= moment and it >= number for due, it, _ in mirror.states)


def check(mirrors: list[Behind], count: int, number: int, moment: float) -> None:
    if (found := sum(had(it, number, moment) for it in mirrors)) < count:
        raise Wrong(f"the change {number} was answered when {found} mirrors had it, and not {count}")


def create(gateway: Gateway) -> Came:
    return gateway.api("PUT", "changeset/create", CHANGESET, ALICE)


def created(gateway: Gateway, mirrors: list[Behind], count: int) -> float:
    """Seconds that the answer took."""
    start = time.monotonic()
    came, moment = create(gateway), time.monotonic()
    want(came.status, 200, came.text[:300])
    check(mirrors, count, int(came.text), moment)
    return moment - start


def uploaded(gateway: Gateway, server: int, mirrors: list[Behind], count: int) -> None:
    """A diff result that is long enough to be sent in parts, of which none may come before."""
    changeset = gateway.changeset()
    nodes = "".join(f'<node id="-{number}" changeset="{changeset}" lat="48.{number:04}" lon="11.5"/>' for number in range(1, NODES + 1))
    came = gateway.api("POST", f"changeset/{changeset}/upload", f"<osmChange><create>{nodes}</create></osmChange>", ALICE)
    moment = time.monotonic()
    want(came.status, 200, came.text[:300])
    want(came.text.count("<node "), NODES, "rows of the diff result")
    check(mirrors, count, Link(server, kept=1).ask("GET", "replication/state").read()["sequenceNumber"], moment)


@contextlib.contextmanager
def confirming(server: int, mirrors: list[Behind], count: int, *more: str) -> Iterator[Gateway]:
    with before(server, [it.port for it in mirrors], ("--confirmed-by", str(count), *more)) as gateway:
        yield gateway


def each(program: str, count: int) -> list[float]:
    """Every answer comes when so many have what it tells of."""
    with Server(program, 24, USERS) as server, Behind(server.port) as one, Behind(server.port) as other:
        mirrors = [one, other]
        with confirming(server.port, mirrors, count) as gateway, ThreadPoolExecutor(CLIENTS) as pool:
            took = sorted(pool.map(lambda _: created(gateway, mirrors, count), range(CREATIONS)))
            uploaded(gateway, server.port, mirrors, count)
    return took


def late(program: str) -> None:
    """Where too few have it in time that is said, with a status on which nobody sends it again, and the change is there."""
    metrics = free_port()
    with Server(program, 24, USERS) as server, Behind(server.port, 0.01) as one, Behind(server.port, 0.01) as other:
        more = ("--confirm-seconds", "1", "--metrics", f"127.0.0.1:{metrics}")
        with confirming(server.port, [one, other], 1, *more) as gateway:
            one.is_frozen = True
            want(create(gateway).status, 200, "a change with one mirror of two")
            other.is_frozen = True
            start = time.monotonic()
            came = create(gateway)
            want(came.status, 424, f"a change that no mirror has: {came.text[:300]}")
            if not 0.9 < time.monotonic() - start < 5:
                raise Wrong(f"it was told behind {time.monotonic() - start:.1f} s")
            has(came.text, "fewer than 1 mirrors", "what is said of it")
            want(came.fields.get("Retry-After"), None, "Retry-After of a change that was done")
            want(Link(server.port, kept=1).ask("GET", "changeset/2").status, 200, "the change at the server")
            refused = gateway.api("PUT", "node/create", "<osm/>", ALICE)
            want(refused.status, 400, "what is refused waits for nobody")
            one.is_frozen = other.is_frozen = False
            want(create(gateway).status, 200, "a change once they are back")
            has(ask(metrics, "GET", "/metrics").text, "gateway_changes_unconfirmed_total 1\n", "the counts")


def replaced(program: str) -> None:
    """Another server, that lacks the change, stands at the server's address before a mirror has it: it isn't answered as done."""
    with tempfile.TemporaryDirectory() as folder, ThreadPoolExecutor(1) as pool:
        journal, copy = os.path.join(folder, "one"), os.path.join(folder, "other")
        with Server(program, 24, USERS, command=("serve", "--journal", journal)) as server, Behind(server.port, 0.01) as mirror:
            with confirming(server.port, [mirror], 1, "--confirm-seconds", "20") as gateway:
                want(create(gateway).status, 200, "a change")
                shutil.copy(journal, copy)
                mirror.is_frozen = True
                waiting = pool.submit(create, gateway)
                time.sleep(1)
                os.kill(server.pid, signal.SIGKILL)
                server.process.wait()
                with Server(program, 24, USERS, command=("serve", "--journal", copy), port=server.port):
                    mirror.is_frozen = False
                    came = waiting.result()
        want(came.status, 424, f"a change of a server that is gone: {came.text[:300]}")


def outlives(program: str, mirror: str, seed: int) -> int:
    """The server is killed under eight clients: each change that was answered is at a mirror. How many were."""
    answered: list[int] = []
    ended = threading.Event()

    def work(gateway: Gateway) -> None:
        while not ended.is_set():
            came = create(gateway)
            if came.status == 200:
                answered.append(int(came.text))

    with Server(program, 24, USERS) as server, two(mirror, server.port) as ports:
        with before(server.port, ports, ("--confirmed-by", "1", "--confirm-seconds", "2")) as gateway, ThreadPoolExecutor(CLIENTS) as pool:
            working = [pool.submit(work, gateway) for _ in range(CLIENTS)]
            time.sleep(random.Random(seed).uniform(*KILLED_AFTER))
            os.kill(server.pid, signal.SIGKILL)
            time.sleep(0.5)
            ended.set()
            for done in working:
                done.result()
            for number in answered:
                statuses = [Link(port, kept=1).ask("GET", f"changeset/{number}").status for port in ports]
                if 200 not in statuses:
                    raise Wrong(f"changeset {number} was answered and is at no mirror: {statuses}")
    return len(answered)


def words(server: int) -> None:
    too_many, too_short = ("--confirmed-by", "2"), ("--confirmed-by", "1", "--confirm-seconds", "0")
    for more, text in ((too_many, "up to that of the mirrors"), (too_short, "from 0.1 to 250")):
        refuses_to_start(Gateway(server, more=("--mirrors", "http://127.0.0.1:1", *more)), text)


def run(program: str) -> str:
    words(2)
    took = each(program, 1), each(program, 2)
    late(program)
    replaced(program)
    halves = [f"by {count}: half within {1000 * it[len(it) // 2]:.0f} ms, all within {1000 * it[-1]:.0f} ms" for count, it in enumerate(took, 1)]
    told = "; ".join(halves)
    mirror = mirror_beside(program)
    if mirror is None:
        return f"{told}; the program of the mirror is not there"
    kept = [outlives(program, mirror, SEED + number) for number in range(3)]
    return f"{told}; of {', '.join(map(str, kept))} answered changes none was lost with the server"
