#!/usr/bin/python3
"""Runs a fleet and tries it: examples/fleet/fleet.py [--engine postgresql] [--uploads 2000] [--seconds 5] [PART ..]

Starts `osm serve`, four mirrors, an engine, writer.py, a carrier for each mirror, keep.py, and nginx with nginx.conf in front, on free
ports of the loopback. Status 0 where all is as it should be. The parts:

- level: while uploads go through nginx, at first with a second writer beside the one, a mirror, a carrier, the engine and the writer
  are killed and started again, one after another; then each mirror is level, no mirror's number went back, and nine kinds of reads are
  the server's byte for byte, those of a mirror too that was fed from the file of keep.py;
- news: how long after the reply to an upload all four mirrors have it;
- reads: by wrk, through nginx with 1, 2 and 4 mirrors, for so many seconds each;
- untold: a Redis that forbids CONFIG is refused by the writer, and taken where it is told to trust it;
- taken: level.py takes mirrors out of nginx that were started with an empty map or whose carriers are killed, and puts them back;
- known: mirrors that answer reads only while they are known to be level do so without level.py;
- anew: the server is killed and started again; the writer tells of the other journal, and nothing of it comes to a mirror.

Needs Debian's nginx-light, redis-server and python3-redis (or postgresql and python3-psycopg2), and wrk where there are seconds.
"""

from __future__ import annotations

import argparse
import os
import re
import signal
import subprocess
import sys
import tempfile
import time
from collections.abc import Callable
from contextlib import ExitStack
from functools import partial
from typing import Any

import scripts
from engine import open_engine
from known import known
from levels import PAUSE, Readers, empty_without, lines_of, wait_for, wait_for_numbers, wait_until_read
from running import ENGINES, HERE, USERS, Front, Process, Redis, Watch
from running import new_mirror, number, same_reads, script, url, wait_until, wait_until_known, with_token
from serving import Link, Server, Wrong, free_port, trial_status

TOP = os.path.join(HERE, "..", "..")
SERVER_WORKERS = 12
MIRRORS = 4
PARTS = ("level", "news", "reads", "untold", "taken", "known", "anew")
MOST_NEWS = 0.05  # seconds
UNTIL_LEVEL = 300  # seconds for which a mirror counts as level: for longer than a carrier is gone here


class Fleet:
    """All that runs, until the end of the stack."""

    def __init__(self, words: argparse.Namespace, folder: str, stack: ExitStack) -> None:
        self.program, self.mirror_program, self.folder, self.stack = words.program, words.mirror, folder, stack
        self.server = Server(words.program, SERVER_WORKERS, USERS, port=free_port())
        self.mirrors: list[Server] = []
        stack.callback(self.end_servers)
        self.mirrors += [new_mirror(words.mirror, until_level=UNTIL_LEVEL) for _ in range(MIRRORS)]
        self.engine = ENGINES[words.engine](folder)
        stack.callback(self.engine.kill)
        self.ports = [it.port for it in self.mirrors]
        self.shown = os.path.join(folder, "writer.prom")
        self.writer = self.add("writer.py", "--server", url(self.server.port), "--engine", self.engine.url, "--metrics", self.shown)
        self.carriers = [self.add("carrier.py", "--mirror", url(port), "--engine", self.engine.url) for port in self.ports]
        self.kept = os.path.join(folder, "journal.txt")
        self.keeper = self.add("keep.py", self.kept, "--server", url(self.server.port))
        self.link, self.changeset, self.uploads = Link(self.server.port, "alicetoken", 900), 0, 0

    def end_servers(self) -> None:
        for server in (self.server, *self.mirrors):
            server.__exit__()

    def add(self, name: str, *words: str) -> Process:
        process = script(name, *words)
        self.stack.callback(process.kill)
        return process

    def edit_through(self, port: int) -> None:
        self.link = Link(port, "alicetoken", 900)
        if not self.changeset:
            self.changeset = self.link.ask("PUT", "changeset/create", {"tags": {"comment": "fleet"}}).read()

    def upload(self, count: int = 1) -> None:
        """Uploads of a node each, and every tenth time with a way of it and of the one before."""
        for place in range(self.uploads, self.uploads + count):
            new = {"type": "node", "id": -1, "lat7": 481000000 + place, "lon7": 115000000 + place, "tags": {"n": str(place)}}
            blocks: list[dict[str, Any]] = [{"create": [new]}]
            if place % 10 == 9:
                blocks.append({"create": [{"type": "way", "id": -1, "nodes": [-1, place], "tags": {"highway": "path"}}]})
            reply = self.link.ask("POST", f"changeset/{self.changeset}/upload", {"osmChange": blocks})
            if reply.status != 200:
                raise Wrong(f"upload {place}: {reply.status} {reply.body.decode()}")
        self.uploads += count

    def level(self, what: str, since: float = 0.0) -> float:
        """Waits until all mirrors have what the server has, and tells how long that took, or was since that moment."""
        wanted, start = number(self.server.port), since or time.monotonic()
        for port in self.ports:
            wait_until(what, wanted, port)
            wait_until_known(port)
        return time.monotonic() - start

    def kill_mirror(self, place: int) -> None:
        self.mirrors[place].process.kill()
        self.mirrors[place].__exit__()

    def start_mirror(self, place: int, until_level: int = UNTIL_LEVEL) -> None:
        self.mirrors[place] = new_mirror(self.mirror_program, self.ports[place], until_level)

    def restart_empty(self, place: int, until_level: int = UNTIL_LEVEL, pause: float = 0) -> None:
        """A mirror that is started anew, and isn't given any piece yet."""
        self.carriers[place].kill()
        self.kill_mirror(place)
        time.sleep(pause)
        self.start_mirror(place, until_level)

    def check_reads(self) -> int:
        return min(same_reads(self.server.port, port, f"mirror {place}", self.uploads) for place, port in enumerate(self.ports, 1))


def level(fleet: Fleet, words: argparse.Namespace) -> None:
    part = words.uploads // 10
    with Front(fleet.folder, fleet.server.port, fleet.ports, 2) as front:
        watches = [Watch(port) for place, port in enumerate(fleet.ports) if place != 1]
        second = fleet.add("writer.py", "--server", url(fleet.server.port), "--engine", fleet.engine.url)
        fleet.edit_through(front.port)
        fleet.upload(2 * part)
        print(f"{number(fleet.server.port)} pieces, all at four mirrors {fleet.level('a mirror'):.2f} s after the last upload", flush=True)
        if second.process.poll() is not None:
            raise Wrong(f"a second writer ends: {second.said}")
        second.kill()
        breaks: tuple[tuple[str, Callable[[], None], Callable[[], None]], ...] = (
            ("a mirror", partial(fleet.kill_mirror, 1), partial(fleet.start_mirror, 1)),
            ("a carrier", fleet.carriers[2].kill, fleet.carriers[2].start),
            ("the engine", fleet.engine.kill, fleet.engine.start),
            ("the writer", fleet.writer.kill, fleet.writer.start),
        )
        for what, kill, start in breaks:
            kill()
            fleet.upload(2 * part)
            began = time.monotonic()
            start()
            seconds = fleet.level(what, began)
            told = f"{what} killed, {2 * part} uploads, started again: level {seconds:.2f} s later"
            print(f"{told}, at {number(fleet.server.port)} pieces", flush=True)
        for watch in watches:
            watch.judge()
    kinds, asked = fleet.check_reads(), sum(len(it.numbers) for it in watches)
    print(f"no number went back in {asked} answers; {kinds} kinds of reads are the server's, byte for byte", flush=True)
    with new_mirror(fleet.mirror_program) as new:
        most, until = number(fleet.server.port), time.monotonic() + 30
        while sum(1 for _ in open(fleet.kept, "rb")) < most and time.monotonic() < until:
            time.sleep(0.05)
        start_time = time.monotonic()
        words_of_keep = [sys.executable, os.path.join(HERE, "keep.py"), fleet.kept, "--feed", url(new.port)]
        subprocess.run(words_of_keep, check=True, stdout=subprocess.DEVNULL, env=with_token())
        seconds = time.monotonic() - start_time
        same_reads(fleet.server.port, new.port, "the mirror of the file", fleet.uploads)
    print(f"a new mirror has the file's {most} pieces after {seconds:.2f} s, and its reads are the server's", flush=True)


def news(fleet: Fleet, words: argparse.Namespace) -> None:
    fleet.edit_through(fleet.server.port)
    fleet.upload()
    fleet.level("a mirror")
    links = [Link(port) for port in fleet.ports]
    times = []
    for _ in range(words.news):
        time.sleep(0.05)
        fleet.upload()
        start, wanted = time.monotonic(), f"node/{fleet.uploads}"
        for link in links:
            while link.ask("GET", wanted).status != 200:
                time.sleep(0.001)
        times.append(time.monotonic() - start)
    times.sort()
    half, most = times[len(times) // 2], times[-1]
    told = f"an upload is at all four mirrors {1000 * half:.1f} ms after its reply, half of the time, and {1000 * most:.1f} ms at most"
    print(f"{told}; of {len(times)} uploads {sum(it <= MOST_NEWS for it in times)} within {1000 * MOST_NEWS:.0f} ms", flush=True)


def reads(fleet: Fleet, words: argparse.Namespace) -> None:
    if not words.seconds:
        return
    fleet.edit_through(fleet.server.port)
    fleet.upload()
    fleet.level("a mirror")
    for count in (1, 2, 4):
        # wrk has one address: here each of its links is a reader of its own.
        with Front(fleet.folder, fleet.server.port, fleet.ports[:count], 2, "$remote_addr$remote_port") as front:
            print(f"{count} mirrors: {reads_a_second(front.port, words.seconds):.0f} reads a second through nginx")
    print(f"straight at one mirror: {reads_a_second(fleet.ports[0], words.seconds):.0f} reads a second", flush=True)


def reads_a_second(port: int, seconds: int) -> float:
    words = ["wrk", "-t", "2", "-c", "16", "-d", f"{seconds}s", f"{url(port)}/api/0.6/node/1"]
    told = subprocess.run(words, capture_output=True, check=True, text=True).stdout
    found = re.search(r"Requests/sec: *([0-9.]+)", told)
    if found is None or "Non-2xx" in told:
        raise Wrong(told)
    return float(found[1])


def untold(fleet: Fleet, words: argparse.Namespace) -> None:
    if words.engine != "redis":
        return
    fleet.edit_through(fleet.server.port)
    fleet.upload(5)
    wanted = number(fleet.server.port)
    runs = (("forbids", ("--rename-command", "CONFIG", "")), ("loses", ("--appendfsync", "everysec")))
    for name, more in runs:
        redis = Redis(fleet.folder, name, more)
        fleet.stack.callback(redis.kill)
        ends = ("--server", url(fleet.server.port), "--engine", redis.url)
        check_end(fleet.add("writer.py", *ends), "--trust-engine" if name == "forbids" else "everysec", 1)
        trusting = fleet.add("writer.py", *ends, "--trust-engine")
        if name == "loses":
            check_end(trusting, "everysec", 1)
            continue
        until = time.monotonic() + 30
        while (has := pieces_of(redis.url)) != wanted:
            if time.monotonic() > until:
                raise Wrong(f"a writer that trusts its engine has brought {has} of {wanted} pieces: {trusting.said}")
            time.sleep(0.1)
    print("a Redis that forbids CONFIG is refused, and taken with --trust-engine; one that says that it may lose pieces is refused with it too")


def pieces_of(address: str) -> int:
    engine = open_engine(address)
    try:
        return engine.ends(engine.journal()).number
    finally:
        engine.close()


def taken(fleet: Fleet, _: argparse.Namespace) -> None:
    fleet.edit_through(fleet.server.port)
    fleet.upload(20)
    fleet.level("a mirror")
    with Front(fleet.folder, fleet.server.port, fleet.ports, 2) as front:
        empty = empty_without(front, partial(fleet.restart_empty, 0, 0))
        if not empty:
            raise Wrong("a fresh mirror in rotation answers nobody with an empty map, so the trial below would find nothing")
        fleet.carriers[0].start()
        fleet.level("a mirror")
        named = [word for port in fleet.ports for word in ("--mirror", url(port))]
        shown = os.path.join(fleet.folder, "level.prom")
        words = ["--server", url(fleet.server.port), *named, "--write", front.included, "--pid", front.pid, "--metrics", shown]
        guard = fleet.add("level.py", *words, "--most", "10", "--seconds", "5")
        try:
            told = f"a fresh mirror in rotation: {empty} replies of an empty map, and with level.py {fresh_is_out(fleet, front)}"
            print(f"{told}; {carriers_die(fleet, front)}; {all_behind(fleet, front)}; {numbers_are_told(fleet, shown)}", flush=True)
            print(unwritten(fleet, front, guard, shown), flush=True)
        except Wrong as why:
            raise Wrong(f"{why}; level.py said {guard.said[-8:]}") from why
        guard.kill()


def fresh_is_out(fleet: Fleet, front: Front) -> str:
    time.sleep(3)
    readers = Readers(front.port, "node/1")
    fleet.restart_empty(0, 0, PAUSE)
    time.sleep(3)
    if lines_of(front)[fleet.ports[0]]:
        raise Wrong("an empty mirror is in")
    fleet.carriers[0].start()
    wait_for(front, fleet.ports[0], True)
    readers.end()
    if readers.wrong:
        raise Wrong(f"{len(readers.wrong)} of {readers.count} reads: {readers.wrong[0]}")
    return f"none of {readers.count}"


def carriers_die(fleet: Fleet, front: Front) -> str:
    """A mirror is out by the seconds, and one by its number of pieces."""
    told = []
    for place, uploads, reason in ((2, 5, "by the seconds"), (3, 20, "by the pieces")):
        fleet.carriers[place].kill()
        fleet.edit_through(fleet.server.port)  # the link of before has been silent for long
        fleet.upload(uploads)
        seconds = wait_for(front, fleet.ports[place], False)
        wait_until_read(front.port, f"node/{fleet.uploads}")
        fleet.carriers[place].start()
        told.append(f"{seconds:.1f} s {reason}, and in again {wait_for(front, fleet.ports[place], True):.1f} s behind its start")
    return f"a killed carrier's mirror is out within {'; '.join(told)}"


def all_behind(fleet: Fleet, front: Front) -> str:
    """The server is read where no mirror is level, and the mirrors again where it doesn't answer."""
    for carrier in fleet.carriers:
        carrier.kill()
    fleet.edit_through(fleet.server.port)
    fleet.upload(20)
    for port in fleet.ports:
        wait_for(front, port, False)
    wait_until_read(front.port, f"node/{fleet.uploads}")
    os.kill(fleet.server.pid, signal.SIGSTOP)
    try:
        for port in fleet.ports:
            wait_for(front, port, True)
        wait_until_read(front.port, "node/1")
    finally:
        os.kill(fleet.server.pid, signal.SIGCONT)
    for carrier in fleet.carriers:
        carrier.start()
    fleet.level("a mirror")
    for port in fleet.ports:
        wait_for(front, port, True)
    return "where no mirror is level the server is read, and where it doesn't answer the mirrors are in again"


def numbers_are_told(fleet: Fleet, shown: str) -> str:
    """By level.py and by the writer, with a mirror that is gone and one that has all."""
    fleet.carriers[3].kill()
    fleet.kill_mirror(3)
    pieces = number(fleet.server.port)
    gone, here = (url(fleet.ports[place]) for place in (3, 0))
    wait_for_numbers(shown, {
        ("map_server_up", ""): 1, ("map_server_changes", ""): pieces, ("map_mirror_up", gone): 0, ("map_mirror_level", gone): 0,
        ("map_mirror_up", here): 1, ("map_mirror_level", here): 1, ("map_mirror_changes", here): pieces,
    }, ("map_mirror_changes", gone))  # fmt: skip
    wait_for_numbers(fleet.shown, {("engine_changes", ""): pieces})
    fleet.start_mirror(3)
    fleet.carriers[3].start()
    fleet.level("a mirror")
    return "what is shown to Prometheus is so"


def unwritten(fleet: Fleet, front: Front, guard: Process, shown: str) -> str:
    """Files that can't be written are told once each, and level.py and the writer go on; nginx is told once they can."""
    wait_for(front, fleet.ports[3], True)
    places = [f"{path}.new" for path in (front.included, shown, fleet.shown)]
    for place in places:
        os.mkdir(place)
    fleet.edit_through(fleet.server.port)
    fleet.upload(5)
    fleet.level("a mirror")
    fleet.carriers[3].kill()
    fleet.kill_mirror(3)
    time.sleep(4)
    told = [sum("can't be written" in line for line in it.said) for it in (guard, fleet.writer)]
    for place in places:
        os.rmdir(place)
    if told != [2, 1]:
        raise Wrong(f"of files that can't be written level.py and the writer tell {told} times: {fleet.writer.said[-5:]}")
    wait_for(front, fleet.ports[3], False)
    wait_for_numbers(fleet.shown, {("engine_changes", ""): number(fleet.server.port)})
    fleet.start_mirror(3)
    fleet.carriers[3].start()
    fleet.level("a mirror")
    return "files that can't be written are told once each, and level.py and the writer go on"


def anew(fleet: Fleet, _: argparse.Namespace) -> None:
    fleet.edit_through(fleet.server.port)
    fleet.upload(5)
    fleet.level("a mirror")
    pieces, old = number(fleet.server.port), [answers(port) for port in fleet.ports]
    fleet.server.process.kill()
    fleet.server.__exit__()
    fleet.server = Server(fleet.program, SERVER_WORKERS, USERS, port=fleet.server.port)
    for process in (fleet.writer, fleet.keeper):
        check_end(process, "another journal")
    # Once it is longer than the journal of before, it has another piece under a number.
    fleet.changeset = fleet.uploads = 0
    fleet.edit_through(fleet.server.port)
    fleet.upload(pieces + 20)
    for process in (fleet.writer, fleet.keeper):
        process.start()
        check_end(process, "another journal")
    # Who begins a new journal in the engine gets it, and whoever has the old one is given nothing of it.
    fleet.writer = fleet.add("writer.py", "--new", "--server", url(fleet.server.port), "--engine", fleet.engine.url)
    for process in fleet.carriers:
        check_end(process, "another journal")
        process.start()
        check_end(process, "another journal")
    if [answers(port) for port in fleet.ports] != old:
        raise Wrong("a mirror of the old journal has changed")
    for place, process in enumerate(fleet.carriers):
        fleet.kill_mirror(place)
        fleet.start_mirror(place)
        process.start()
    seconds = fleet.level("a mirror that was started anew")
    fleet.check_reads()
    told = "the writer and the keeper end with status 3, and so do the carriers of the old journal's mirrors, which have what they had"
    print(f"the server is another one: {told}; mirrors that are started anew are level after {seconds:.2f} s", flush=True)


def answers(port: int) -> list[bytes]:
    link = Link(port)
    return [link.ask("GET", path).body for path in ("replication/state", "changesets", "map?bbox=11.5,48.1,11.6,48.2")]


def check_end(process: Process, text: str, wanted: int = 3) -> None:
    status = process.end()
    if status != wanted or not any(text in line for line in process.said):
        raise Wrong(f"{' '.join(process.words[1:3])} ended with status {status}: {process.said}")


def tried(words: argparse.Namespace) -> None:
    with tempfile.TemporaryDirectory() as folder, ExitStack() as stack:
        fleet = Fleet(words, folder, stack)
        for name in words.part or PARTS:
            globals()[name](fleet, words)


def main() -> int:
    parser = argparse.ArgumentParser(usage=scripts.usage(__doc__))
    parser.add_argument("--program", default=os.path.join(TOP, "crates/osm/out/osm"))
    parser.add_argument("--mirror", default=os.path.join(TOP, "crates/osm_mirror/out/osm_mirror"))
    parser.add_argument("--engine", choices=tuple(ENGINES), default="redis")
    parser.add_argument("--uploads", type=int, default=2000)
    parser.add_argument("--news", type=int, default=100)
    parser.add_argument("--seconds", type=int, default=5)
    parser.add_argument("part", nargs="*", choices=[[], *PARTS], default=[])
    return trial_status(partial(tried, parser.parse_args()))


if __name__ == "__main__":
    sys.exit(main())
