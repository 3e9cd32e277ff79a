"""A mirror of this program's own, which is given pieces and asked what they made."""

from __future__ import annotations

import ctypes
import json
import os
import secrets
import signal
import socket
import subprocess
import tempfile
import time
from collections.abc import Iterator, Sequence
from typing import Any

from feed import Unusable
from kept_link import Lost, Site

WAIT = 7_200  # seconds for a mirror to begin, since its program may have to be built before
PR_SET_PDEATHSIG = 1
UNKEPT, ENDING = 9, 1.0
"""A mirror's status where its disk is full or fails, and seconds that its end may take."""


class Ended(Exception):
    """The mirror is gone, and with it what it had: it takes a new one."""


def end_with_parent() -> None:
    """In the child: whatever ends this program ends the mirror too (Linux). What it keeps is for nobody else."""
    ctypes.CDLL(None).prctl(PR_SET_PDEATHSIG, signal.SIGTERM)
    os.umask(0o077)


def held_port() -> socket.socket:
    """Has a free port, so that nobody else is given it; a mirror that is told this port may listen beside."""
    held = socket.socket()
    held.setsockopt(socket.SOL_SOCKET, socket.SO_REUSEADDR, 1)
    held.bind(("127.0.0.1", 0))
    return held


class OwnMirror:
    """Starts a mirror on a free port of the loopback, with one user who may post pieces; `close` ends it. It begins with what the file
    of its journal has, and keeps there what it is given; without one it is empty, and keeps nothing.

    A mirror that serves its standard streams would end behind 1,000 requests, so it listens.
    """

    def __init__(self, words: Sequence[str], journal: str | None) -> None:
        self.length, self.journal = 0, journal
        self.held, token = held_port(), secrets.token_hex(16)
        port = self.held.getsockname()[1]
        self.site = Site(f"http://127.0.0.1:{port}", token)
        with tempfile.TemporaryDirectory() as folder:
            users = os.path.join(folder, "users.txt")
            with open(users, "w", encoding="utf-8") as file:
                file.write(f"1 {token} moderator replication\n")
            more = ["--users", users, "--listen", f"127.0.0.1:{port}", "--workers", "2", *(["--journal", journal] if journal else [])]
            self.process = subprocess.Popen([*words, *more], stdin=subprocess.DEVNULL, preexec_fn=end_with_parent)
            try:
                self.length = self.wait_for_it(words[0])
            except BaseException:
                self.close()
                raise

    def wait_for_it(self, program: str) -> int:
        """Answers how many pieces it has."""
        until = time.monotonic() + WAIT
        while True:
            try:
                return int(json.loads(self.site.ask(self.site.get("replication/state")).body)["sequenceNumber"])
            except Lost as why:
                if self.process.poll() == UNKEPT:
                    raise self.ended(why) from None
                if self.process.poll() is not None:
                    raise Unusable(
                        f"the mirror's program {program} ended with status {self.process.returncode}; its journal: {self.journal or 'none'}"
                    ) from None
                if time.monotonic() > until:
                    raise Unusable(f"the mirror's program {program} doesn't answer") from None
                time.sleep(0.02)

    def post(self, pieces: Sequence[bytes]) -> None:
        """Gives it the pieces that come next."""
        try:
            for reply in self.site.exchange([self.site.post("replication", it) for it in pieces]):
                self.length += 1
                if reply.status != 200 or json.loads(reply.body).get("taken") != "folded":
                    raise Unusable(
                        f"piece {self.length} isn't taken by a mirror: {reply.status} {reply.body[:200].decode(errors='replace')}"
                    )
        except Lost as why:
            raise self.ended(why) from why

    def ended(self, why: Lost) -> Ended:
        """With its status, which it has once it is gone."""
        try:
            status = self.process.wait(ENDING)
        except subprocess.TimeoutExpired:
            return Ended(f"the mirror doesn't answer: {why}")
        cause = f": {self.journal} can't be written" if status == UNKEPT else ""
        return Ended(f"the mirror ended with status {status}{cause}")

    def bodies(self, paths: Sequence[str]) -> Iterator[dict[str, Any] | None]:
        """Of each read what it tells; none where there is no such thing."""
        try:
            for path, reply in zip(paths, self.site.exchange([self.site.get(it) for it in paths])):
                if reply.status not in (200, 404):
                    raise Unusable(f"the mirror's reply to {path}: {reply.status} {reply.body[:200].decode(errors='replace')}")
                yield json.loads(reply.body) if reply.status == 200 else None
        except Lost as why:
            raise self.ended(why) from why

    def read(self, paths: Sequence[str]) -> list[dict[str, Any] | None]:
        """The first element of each reply, with those that are redacted; none where there is no such element or version."""
        return [it and it["elements"][0] for it in self.bodies(paths)]

    def changesets(self, ids: Sequence[int]) -> list[dict[str, Any]]:
        found = list(self.bodies([f"changeset/{it}" for it in ids]))
        if None in found:
            raise Unusable(f"the mirror has no changeset {ids[found.index(None)]}, which the feed tells of")
        return [it["changeset"] for it in found if it]

    def close(self) -> None:
        self.site.close()
        self.process.terminate()
        try:
            self.process.wait(10)
        except subprocess.TimeoutExpired:
            self.process.kill()
            self.process.wait()
        self.held.close()
