#!/usr/bin/python3
"""Kills a server and the keeper of its journal's copy: examples/fleet/copied.py [--program PROGRAM] [--runs 6] [--seconds 2] [--seed 1]

Each run starts copy_keeper.py and `PROGRAM serve --journal FILE+tcp://..` on free ports of the loopback, and eight links upload a node
each, one behind the other. After a drawn time, by turns,

- the server's machine is gone: the server is killed and its file put away, the keeper is ended, and a server is started on the copy. Each
  node that was answered has to be there, and eight links upload on. Then the old file is back, and its server is started as before: without
  a keeper it has to end with status 3;
- the keeper's machine is gone: the keeper is killed. No upload that is sent from then on may be accepted, and the server has to end with
  status 9; started again it has to end with status 3, and with a keeper of an empty copy too that is started without --begin. With one of
  the same copy, or of an empty one and --begin, it goes on: each node that was answered is there, and behind a stop in order the copy is
  the file, byte for byte;
- the server's machine is gone while the keeper is held by SIGSTOP, and the keeper is killed: what it was sent and hadn't read is lost. All
  else is as in the first kind.

PROGRAM is crates/osm/out/osm where none is named. Status 0 where all holds.
"""

from __future__ import annotations

import argparse
import os
import random
import signal
import subprocess
import sys
import tempfile
import threading
import time
from collections.abc import Callable
from contextlib import ExitStack
from functools import partial
from typing import NamedTuple

import scripts
from keeper_run import KeeperRun
from running import HERE, USERS
from serving import Link, Lost, Server, Unanswered, Wrong, free_port, tell_faults

PROGRAM = os.path.join(HERE, "..", "..", "crates", "osm", "out", "osm")
WORKERS = 12
LINKS = 8
ADDED = 10  # uploads of each link behind each run
SECONDS = 60  # until a program has to have ended
UNOPENED, UNKEPT = 3, 9  # a server's statuses


class Node(NamedTuple):
    """One whose upload was accepted, and when that was sent."""

    id: int
    lat7: int
    lon7: int
    sent: float


class Uploads(threading.Thread):
    """Uploads of a node each on one link, so many or until the server is gone."""

    def __init__(self, port: int, place: int, most: int = 0) -> None:
        super().__init__(daemon=True)
        self.link, self.place, self.most = Link(port, "alicetoken", 900), place, most
        self.nodes: list[Node] = []
        self.start()

    def run(self) -> None:
        try:
            changeset = self.link.ask("PUT", "changeset/create", {"tags": {"comment": "copied"}}).read()
            while not self.most or len(self.nodes) < self.most:
                sent, lat7, lon7 = time.monotonic(), 481000000 + len(self.nodes), 115000000 + self.place
                create = {"type": "node", "id": -1, "lat7": lat7, "lon7": lon7}
                reply = self.link.ask("POST", f"changeset/{changeset}/upload", {"osmChange": [{"create": [create]}]})
                if reply.status != 200:
                    return
                self.nodes.append(Node(reply.read()["diffResult"][0]["new_id"], lat7, lon7, sent))
        except (OSError, Lost):
            return


def lost(port: int, nodes: list[Node]) -> list[Node]:
    """Those that aren't there as they were uploaded."""
    link, found = Link(port, kept=900), []
    for it in nodes:
        reply = link.ask("GET", f"node/{it.id}")
        node = reply.read()["elements"][0] if reply.status == 200 else {}
        if (node.get("lat7"), node.get("lon7"), node.get("version")) != (it.lat7, it.lon7, 1):
            found.append(it)
    return found


class Trial:
    """A run, with the programs that it has started, which end with it."""

    def __init__(self, program: str, folder: str, stack: ExitStack) -> None:
        self.program, self.stack = program, stack
        self.file, self.copy = os.path.join(folder, "file"), os.path.join(folder, "copy")
        self.port, self.keeper_port = free_port(), free_port()
        self.journal = f"{self.file}+tcp://127.0.0.1:{self.keeper_port}"
        self.keep(self.copy)
        self.serve(self.journal, self.port)

    def keep(self, copy: str, *, begins: bool = False) -> None:
        self.copy = copy
        self.keeper = KeeperRun(copy, self.keeper_port, begins=begins)
        self.stack.callback(self.keeper.kill)

    def serve(self, journal: str, port: int) -> None:
        try:
            words = ("serve", "--journal", journal, "--until-input-ends")
            self.server = Server(self.program, WORKERS, USERS, command=words, port=port, given=subprocess.PIPE)
        except Unanswered as why:
            raise Wrong(f"on {journal}: {why}; the keeper said {self.keeper.said[-3:]}") from None
        self.stack.callback(self.server.__exit__)
        self.stack.callback(self.server.process.kill)

    def stop(self) -> None:
        """In order."""
        if self.server.process.stdin:
            self.server.process.stdin.close()
        if status := self.server.process.wait(SECONDS):
            raise Wrong(f"a server with a keeper ends with status {status} once its input ends")

    def upload(self, seconds: float) -> list[Uploads]:
        uploads = [Uploads(self.port, it) for it in range(LINKS)]
        time.sleep(seconds)
        if self.server.process.poll() is not None:
            raise Wrong(f"the server ended by itself, with status {self.server.process.returncode}")
        return uploads

    def unopened(self) -> None:
        """The server as it was started at first has to end, since there is no keeper."""
        listen = ("--listen", f"127.0.0.1:{self.port}", "--workers", "1", "--users", os.devnull)
        with subprocess.Popen([self.program, "serve", "--journal", self.journal, *listen], stdin=subprocess.DEVNULL) as process:
            try:
                status: int | None = process.wait(SECONDS)
            except subprocess.TimeoutExpired:
                process.kill()
                status = None
        if status != UNOPENED:
            raise Wrong(f"without a keeper a server ends with status {status}, and not {UNOPENED}")

    def go_on(self, nodes: list[Node]) -> str:
        """All of them have to be at the server that serves now, and it takes more."""
        port = self.server.port
        if gone := lost(port, nodes):
            raise Wrong(f"{len(gone)} of {len(nodes)} answered uploads are lost, node {gone[0].id} first")
        for it in [Uploads(port, LINKS + place, ADDED) for place in range(LINKS)]:
            it.join(SECONDS)
            if len(it.nodes) != ADDED or lost(port, it.nodes):
                raise Wrong(f"{len(it.nodes)} of {ADDED} uploads are accepted behind that")
        return f"0 of {len(nodes)} answered uploads are lost"


def nodes_of(uploads: list[Uploads]) -> list[Node]:
    for it in uploads:
        it.join(SECONDS)
        if it.is_alive():
            raise Wrong("an upload waits for a server that is gone")
    return [node for it in uploads for node in it.nodes]


def server_gone(trial: Trial, drawn: random.Random, seconds: float, is_held: bool = False) -> tuple[int, str]:
    uploads = trial.upload(drawn.uniform(0.2, seconds))
    if is_held:
        # What the keeper was sent and hasn't read is lost, and nothing of it may be answered.
        trial.keeper.process.send_signal(signal.SIGSTOP)
        time.sleep(drawn.uniform(0, 0.5))
    trial.server.process.kill()
    trial.server.process.wait()
    os.rename(trial.file, trial.file + ".gone")
    nodes = nodes_of(uploads)
    if is_held:
        trial.keeper.kill()
    else:
        trial.keeper.stop()
    trial.serve(trial.copy, free_port())
    told = trial.go_on(nodes)
    os.rename(trial.file + ".gone", trial.file)
    trial.unopened()
    how = " while its keeper is held" if is_held else ""
    return len(nodes), f"the server is gone{how}: {told}, and it doesn't come back"


def keeper_gone(trial: Trial, drawn: random.Random, seconds: float) -> tuple[int, str]:
    uploads = trial.upload(drawn.uniform(0.2, seconds))
    trial.keeper.kill()
    killed = time.monotonic()
    try:
        status: int | None = trial.server.process.wait(SECONDS)
    except subprocess.TimeoutExpired:
        status = None
    took = time.monotonic() - killed
    if status != UNKEPT:
        raise Wrong(f"without its keeper a server ends with status {status}, and not {UNKEPT}")
    nodes = nodes_of(uploads)
    if late := [it for it in nodes if it.sent > killed]:
        raise Wrong(f"{len(late)} uploads are accepted that were sent behind the keeper's end")
    trial.unopened()
    which = drawn.choice(("its copy", "an empty copy"))
    if which == "its copy":
        trial.keep(trial.copy)
    else:
        # As one that was begun for another server: the old one isn't taken up again.
        trial.keep(trial.copy + ".new")
        trial.unopened()
        trial.keeper.stop()
        trial.keep(trial.copy, begins=True)
    trial.serve(trial.journal, trial.port)
    told = trial.go_on(nodes)
    trial.stop()
    trial.keeper.stop()
    with open(trial.file, "rb") as file, open(trial.copy, "rb") as copy:
        if file.read() != copy.read():
            raise Wrong("the copy isn't the file")
    return len(nodes), f"the keeper is gone: status {UNKEPT} after {took:.2f} s; with {which} {told}"


PLAYS: tuple[tuple[str, Callable[[Trial, random.Random, float], tuple[int, str]]], ...] = (
    ("the server is gone", server_gone),
    ("the keeper is gone", keeper_gone),
    ("the server is gone while its keeper is held", partial(server_gone, is_held=True)),
)


def main() -> int:
    parser = argparse.ArgumentParser(usage=scripts.usage(__doc__))
    parser.add_argument("--program", default=PROGRAM)
    parser.add_argument("--runs", type=int, default=6)
    parser.add_argument("--seconds", type=float, default=2)
    parser.add_argument("--seed", type=int, default=1)
    words = parser.parse_args()
    drawn, answered, faults = random.Random(words.seed), 0, []
    for place in range(words.runs):
        name, play = PLAYS[place % len(PLAYS)]
        try:
            with tempfile.TemporaryDirectory() as folder, ExitStack() as stack:
                count, told = play(Trial(words.program, folder, stack), drawn, words.seconds)
            answered += count
            print(f"run {place + 1}, {told}", flush=True)
        except (Wrong, OSError, Lost) as why:
            faults.append(f"run {place + 1}, {name}: {why}")
    print(f"{words.runs} runs, {answered} answered uploads, none of them lost" if not faults else f"{words.runs} runs")
    return tell_faults(faults)


if __name__ == "__main__":
    sys.exit(main())
